[cut(top)] int x(void);
long rounds = 200000;

int main(void)
{
    long i;
    int sum = 0;
    char *p;
    for (i = 0; i < rounds; i++) {
        p = r2_malloc(48);
        p[5] = (char)i;
        sum = sum + p[5] + p[6];
        r2_free(p);
    }
    return sum & 127;
}
