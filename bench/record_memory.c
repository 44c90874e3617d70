[cut(top)] int x(void);
long rounds = 1000000;
int table[256];

int main(void)
{
    long i;
    unsigned int state = 1;
    for (i = 0; i < rounds; i++) {
        state = state * 1103515245u + 12345u;
        table[state >> 24] = table[state >> 24] + (int)(i & 7);
    }
    return table[3] & 127;
}
