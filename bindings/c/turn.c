#include <scion.h>
#include <stdio.h>

/* docs/programs.md's turn of a router, by hand. */
int main(void) {
    uint8_t packet[] =
        "\x00\x01\xff\x00\x00\x00\x01\x10\x00\x01\xff\x00\x00\x00\x01\x11"
        "\x00\x00\x20\x00\x00\x00\xb3\x96\x00\x00\x00\x64"
        "\x00\x3f\x00\x02\x00\x00\x11\x0e\x4c\x1d\x3d\xad"
        "\x00\x3f\x00\x00\x00\x01\xa1\xa2\xa3\xa4\xa5\xa6";
    const uint8_t key[] = "k";
    const scion_interface parent = {2, SCION_PARENT, 0, 1};
    const scion_router at111 = {0x0001ff0000000111, key, 1, key, 0, &parent, 1, 0};
    scion_answer answer = scion_step(&at111, 100, SCION_FROM_HOST, 0, packet, 52);
    printf("%u %u %02x\n", answer.code, answer.number, packet[16]);
    return 0;
}
