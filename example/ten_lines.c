#include <noemathu.h>
#include <stdio.h>

int main(void)
{
    static uint8_t session[NOEMATHU_BUNDLE_MOST], result[NOEMATHU_BUNDLE_MOST];
    size_t length = fread(session, 1, sizeof session, stdin);
    noemathu_used made = noemathu_normalize(session, length, result, sizeof result);
    if (made.refusal.number) {
        printf("refusal %u: %s\n", made.refusal.number, noemathu_text(made.refusal.number));
        return 1;
    }
    noemathu_found uri = noemathu_in_scope_uri(result, made.bytes, 0, NULL, 0);
    printf("the default namespace at row 0: %.*s\n", (int)uri.place.length, noemathu_bytes(result, uri.place));
}
