// Calls plistconv_check on standard input, and prints the result. It allocates no memory itself, so that each
// allocation of a run belongs to the call.
#include <plistconv.h>
#include <unistd.h>

#define ROOM (1 << 20)
static uint8_t octets[ROOM];

static int told(const char *text, size_t count, int status) { return write(1, text, count) == (ssize_t)count ? status : 4; }

int main(void) {
    size_t count = 0;
    ssize_t given;
    while (count < ROOM && (given = read(0, octets + count, ROOM - count)) > 0) count += given;
    plistconv_finding finding;
    plistconv_refusal refusal;
    uint8_t number = plistconv_check(octets, count, NULL, &finding, &refusal);
    if (number == PLISTCONV_OUT_OF_MEMORY) return told("refused 60\n", 11, 5);
    if (number != 0) return told("refused\n", 8, 2);
    return finding.canonical ? told("canonical\n", 10, 0) : told("broken\n", 7, 1);
}
