/* Writes the header's version, and fails where its parts say another one. */
#include <iflughan.h>
#include <stdio.h>
#include <string.h>

int main(void) {
    char parts[32];
    snprintf(parts, sizeof parts, "%d.%d.%d", IFLUGHAN_VERSION_MAJOR, IFLUGHAN_VERSION_MINOR, IFLUGHAN_VERSION_PATCH);
    puts(IFLUGHAN_VERSION);
    return strcmp(parts, IFLUGHAN_VERSION) != 0;
}
