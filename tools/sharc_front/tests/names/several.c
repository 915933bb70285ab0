union word { int whole; char parts[4]; };
static double ratio;
int main(void)
{
    union word w;
    w.whole = 1;
    ratio = 0.5;
    goto end;
end:
    return w.parts[0];
}
