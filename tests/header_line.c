/* A text from standard input, its line to standard output, by the text function
 * for C. Ends with 1 where no line came. */
#include "pasagumdil.h"

#include <stdio.h>

int main(void)
{
    static uint8_t text[PASAGUMDIL_TEXT_BYTES + 1];
    uint8_t line[PASAGUMDIL_LINE_BYTES];
    size_t read = fread(text, 1, sizeof text, stdin);
    size_t length = pasagumdil_answer(text, read, line, sizeof line);
    return length == 0 || fwrite(line, 1, length, stdout) != length;
}
