/* What comes from outside comes through `recv`, the one function of the cut `net` that this source has no body for. */
[cut(net)] int recv(int s, [out, cap(len), bsize(return)] char *buf, int len);

char line[8];

int main(void)
{
    return recv(3, line, 8);
}
