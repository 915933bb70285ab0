int main(void) { print(6 * 7); return 0; }
