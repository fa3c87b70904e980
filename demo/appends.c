/* A yardstick for appends: as many times as the first word says, writes 105 bytes behind the end of a file, syncs,
   writes one byte before them, and syncs. So much goes out for a record of 104 bytes. The second word names the file. */
#include <fcntl.h>
#include <stdio.h>
#include <stdlib.h>
#include <string.h>
#include <unistd.h>

int main(int argc, char **argv) {
    if (argc != 3) return 2;
    long count = atol(argv[1]);
    int file = open(argv[2], O_RDWR | O_CREAT | O_TRUNC, 0666);
    char body[109], gate = 1;
    memset(body, 7, sizeof body);
    if (file < 0 || pwrite(file, "", 1, 0) != 1 || fsync(file) != 0) return 1;
    for (long i = 0; i < count; i++) {
        off_t end = i * 109;
        if (pwrite(file, body, sizeof body, end + 1) != sizeof body || fsync(file) != 0) return 1;
        if (pwrite(file, &gate, 1, end) != 1 || fsync(file) != 0) return 1;
    }
    printf("%ld\n", count * 105);
    return 0;
}
