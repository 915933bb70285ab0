int main(void) { print(6 * seven); return 0; }
