/* The least that a program on standard input does: reads some text, writes a
 * line. Its start-up stands beside that of the proved program. */
#include <stdio.h>

int main(void)
{
    char text[4097];
    size_t len = fread(text, 1, sizeof text, stdin);
    puts(len == 0 ? "0F0B0001" : "03");
    return 0;
}
