// Envelopes in plain C: what is signed is the team number's two bytes, low first, and then the roster, joined here in a buffer.
#include <string.h>

#include "plain.h"

static size_t joined(const uint8_t number[2], const uint8_t *roster, size_t roster_len, uint8_t message[MESSAGE_LIMIT]) {
    memcpy(message, number, 2);
    memcpy(message + 2, roster, roster_len);
    return 2 + roster_len;
}

int plain_send(const uint8_t secret_record[SECRET], uint16_t team, const uint8_t *roster, size_t roster_len, const uint8_t r[SEED],
               uint32_t budget, uint8_t *envelope) {
    const uint8_t head[HEAD] = {0x51, 0x15, team & 0xFF, team >> 8, roster_len & 0xFF, roster_len >> 8};
    uint8_t message[MESSAGE_LIMIT], signature[SIGNATURE];
    uint16_t counter;
    if (roster_len > ROSTER_LIMIT)
        return 3;
    int answer = plain_sign(secret_record, message, joined(head + 2, roster, roster_len, message), r, budget, signature, &counter);
    if (answer == 0) {
        memcpy(envelope, head, HEAD);
        memcpy(envelope + HEAD, roster, roster_len);
        memcpy(envelope + HEAD + roster_len, signature, SIGNATURE);
    }
    return answer;
}

int plain_open(const uint8_t public_record[PUBLIC], const uint8_t *envelope, size_t envelope_len, uint16_t *team, size_t *roster_len) {
    uint8_t message[MESSAGE_LIMIT];
    *team = 0;
    *roster_len = 0;
    if (envelope_len < HEAD)
        return 1;
    if (envelope[0] != 0x51 || envelope[1] != 0x15)
        return 2;
    size_t len = envelope[4] + 256 * (size_t)envelope[5];
    if (len > ROSTER_LIMIT)
        return 3;
    if (envelope_len != ENVELOPE(len))
        return 1;
    int answer = plain_check(public_record, message, joined(envelope + 2, envelope + HEAD, len, message), envelope + HEAD + len);
    if (answer == 0) {
        *team = envelope[2] + 256 * envelope[3];
        *roster_len = len;
    }
    return answer;
}
