/* Lists the sheet that standard input holds, through the installed library. */
#include <lampcygnet.h>

#include <stdio.h>

static uint8_t sheet[LAMPCYGNET_SHEET_MOST + 1];
static uint8_t text[LAMPCYGNET_LISTING_MOST];

int main(void)
{
    size_t length = fread(sheet, 1, sizeof sheet, stdin);
    struct lampcygnet_listed listed = lampcygnet_list_sheet(sheet, length, text, sizeof text);
    if (listed.refusal != LAMPCYGNET_ACCEPTED || lampcygnet_decode(0xE8000049).count != 2048) {
        return 1;
    }
    return fwrite(text, 1, listed.length, stdout) == listed.length ? 0 : 1;
}
