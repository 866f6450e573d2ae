/* The worked example of keyline.h and docs/SCRIPT.md: S makes B an editor, and B's power over S is asked for. */
#include "keyline.h"
#include <stdio.h>
#include <string.h>

int main(void) {
    uint8_t script[10 + 32 + 32 + 66 + 10 + 10 + 64], answers[3 * KEYLINE_REPLY_HEAD];
    uint8_t s[32], b[32], payload[KEYLINE_CITED_LENGTH], *at = script;
    size_t length, used, beside;
    memset(s, 1, sizeof s);
    memset(b, 2, sizeof b);
    if (keyline_delegation_encode(b, 32, s, 32, KEYLINE_EDIT, s, 0, payload, sizeof payload, &length, &beside)) return 1;

    const uint8_t insert[] = {KEYLINE_OP_INSERT_DELEGATION, 32, 0, 32, 0, (uint8_t)length, 0, 0, 0, 0};
    const uint8_t evaluate[] = {KEYLINE_OP_EVALUATE, 0, 0, 0, 0, 0, 0, 0, 0, 0};
    const uint8_t power[] = {KEYLINE_OP_EFFECTIVE_POWER, 32, 0, 32, 0, 0, 0, 0, 0, 0};
    at = (uint8_t *)memcpy(at, insert, 10) + 10;
    at = (uint8_t *)memset(at, 0xd1, 32) + 32;
    at = (uint8_t *)memcpy(at, s, 32) + 32;
    at = (uint8_t *)memcpy(at, payload, length) + length;
    at = (uint8_t *)memcpy(at, evaluate, 10) + 10;
    at = (uint8_t *)memcpy(at, power, 10) + 10;
    at = (uint8_t *)memcpy(at, s, 32) + 32;
    at = (uint8_t *)memcpy(at, b, 32) + 32;

    if (keyline_run(script, (size_t)(at - script), answers, sizeof answers, &used, &beside)) return 2;
    for (size_t i = 0; i < used; i++) printf("%02x%c", answers[i], i % KEYLINE_REPLY_HEAD == 8 ? '\n' : ' ');
    return 0;
}
