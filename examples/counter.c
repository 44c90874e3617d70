/* How long lines are that come over the net, on average. What `recv` gives comes from outside: in a recording, from a
   system file. */
[cut(net)] int recv(int s, [out, cap(len), bsize(return)] char *buf, int len);

char buf[8];
int bytes;
int lines;

int main(void)
{
    int n;
    int i;
    while ((n = recv(3, buf, 8)) > 0) {
        for (i = 0; i < n; i++)
            if (buf[i] == '\n')
                lines++;
        bytes += n;
    }
    return bytes / lines;
}
