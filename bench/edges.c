/* The lines of `edges` as a plain C program prints them: the yardstick of edges_1024.
   It reads only the form that edges_1024 writes, and checks nothing. */
#include <inttypes.h>
#include <stdio.h>
#include <string.h>

struct clock {
    char name[32];
    int64_t period; /* femtoseconds */
};

static struct clock clocks[1024];
static int count;

static void read_clocks(const char *path)
{
    FILE *file = fopen(path, "r");
    int64_t whole, thousandths;
    while (count < 1024
           && fscanf(file, " create_clock -name %31s -period %" SCNd64 ".%" SCNd64,
                     clocks[count].name, &whole, &thousandths) == 3) {
        clocks[count++].period = whole * 1000000 + thousandths * 1000;
    }
    fclose(file);
}

static int64_t greatest_common_divisor(int64_t a, int64_t b)
{
    while (b != 0) {
        int64_t rest = a % b;
        a = b;
        b = rest;
    }
    return a;
}

static char *put_text(char *out, const char *text)
{
    size_t length = strlen(text);
    memcpy(out, text, length);
    return out + length;
}

static char *put_number(char *out, int64_t number)
{
    char digits[20];
    int used = 0;
    do {
        digits[used++] = '0' + number % 10;
        number /= 10;
    } while (number != 0);
    while (used > 0)
        *out++ = digits[--used];
    return out;
}

/* nanoseconds, with decimals only where needed */
static char *put_time(char *out, int64_t time)
{
    if (time < 0) {
        *out++ = '-';
        time = -time;
    }
    out = put_number(out, time / 1000000);
    int64_t rest = time % 1000000;
    if (rest != 0)
        *out++ = '.';
    for (int64_t place = 100000; rest != 0; place /= 10) {
        *out++ = '0' + rest / place;
        rest %= place;
    }
    return out;
}

static void print_pair(const char *path, const struct clock *launch, int from, const struct clock *capture, int to)
{
    static const char *edges[] = {" rise", " fall"};
    char line[512], *out = line;
    int64_t step = greatest_common_divisor(launch->period, capture->period);
    int64_t apart = to * (capture->period / 2) - from * (launch->period / 2);
    int64_t setup = (apart - 1) % step + 1;
    if (setup <= 0)
        setup += step;
    out = put_text(put_text(out, path), ": ");
    out = put_text(put_text(out, launch->name), edges[from]);
    out = put_text(put_text(put_text(out, " -> "), capture->name), edges[to]);
    out = put_time(put_text(out, " setup "), setup);
    out = put_time(put_text(out, " hold "), setup - step);
    *out++ = '\n';
    fwrite(line, 1, out - line, stdout);
}

int main(int argc, char **argv)
{
    static char buffer[65536];
    if (argc != 2)
        return 2;
    setvbuf(stdout, buffer, _IOFBF, sizeof buffer);
    read_clocks(argv[1]);
    for (int launch = 0; launch < count; launch++)
        for (int from = 0; from < 2; from++)
            for (int capture = 0; capture < count; capture++)
                for (int to = 0; to < 2; to++)
                    print_pair(argv[1], &clocks[launch], from, &clocks[capture], to);
    return fflush(stdout) == 0 ? 0 : 8;
}
