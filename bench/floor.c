/* The floor for the program's time: it writes a stored report to standard output, line by line through stdio, and
   nothing else. `bench/steps` compares the program with it.

   usage: floor REPORT TIMES

   The report is read into memory first, outside the measured time. Each of the TIMES runs writes all lines. Standard
   error gets the least processor time of a run, in nanoseconds. */
#include <stdio.h>
#include <stdlib.h>
#include <string.h>
#include <time.h>

static long long processor_time(void) {
    struct timespec now;
    clock_gettime(CLOCK_PROCESS_CPUTIME_ID, &now);
    return now.tv_sec * 1000000000LL + now.tv_nsec;
}

/* Returns the file's bytes, and their number. */
static char *bytes_of(const char *name, size_t *length) {
    FILE *file = fopen(name, "rb");
    if (file == NULL || fseek(file, 0, SEEK_END) != 0) return NULL;
    long end = ftell(file);
    rewind(file);
    char *bytes = malloc(end + 1);
    if (bytes == NULL) return NULL;
    *length = fread(bytes, 1, end, file);
    fclose(file);
    return bytes;
}

/* Writes each line by a call of its own. */
static int write_lines(const char *bytes, size_t length) {
    const char *end = bytes + length;
    while (bytes < end) {
        const char *feed = memchr(bytes, '\n', end - bytes);
        const char *next = feed == NULL ? end : feed + 1;
        if (fwrite(bytes, 1, next - bytes, stdout) != (size_t)(next - bytes)) return 0;
        bytes = next;
    }
    return fflush(stdout) == 0;
}

int main(int count, char **words) {
    size_t length;
    char *bytes = count == 3 ? bytes_of(words[1], &length) : NULL;
    if (bytes == NULL) return 2;
    long long least = -1;
    for (int run = atoi(words[2]); run > 0; run--) {
        long long start = processor_time();
        if (!write_lines(bytes, length)) return 1;
        long long time = processor_time() - start;
        if (least < 0 || time < least) least = time;
    }
    fprintf(stderr, "%lld\n", least);
    return 0;
}
