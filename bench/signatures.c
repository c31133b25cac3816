// Verifies signatures of messages of the lengths that are its arguments, here and by OpenSSL in
// turn.
#define OPENSSL_SUPPRESS_DEPRECATED
#include "measure.h"
#include <openssl/rand.h>
#include <openssl/rsa.h>
#include <openssl/sha.h>

uint32_t rpki_signature(const unsigned char *bits, size_t bits_len, const unsigned char *message, size_t message_len,
                        const unsigned char *signature, size_t signature_len);

static unsigned char bits[1024], message[1 << 20], signature[512];
static size_t bits_len, message_len;
static unsigned signature_len;

static int ours(int rounds) {
    int valid = 0;
    for (int i = 0; i < rounds; i++)
        valid += rpki_signature(bits, bits_len, message, message_len, signature, signature_len) == 1;
    return valid;
}

// by a key that was read before
static int kept(RSA *key, int rounds) {
    unsigned char digest[32];
    int valid = 0;
    for (int i = 0; i < rounds; i++) {
        SHA256(message, message_len, digest);
        valid += RSA_verify(NID_sha256, digest, 32, signature, signature_len, key) == 1;
    }
    return valid;
}

// by a key that is read each time
static int fresh(int rounds) {
    int valid = 0;
    for (int i = 0; i < rounds; i++) {
        const unsigned char *at = bits;
        RSA *key = d2i_RSAPublicKey(NULL, &at, (long)bits_len);
        valid += kept(key, 1);
        RSA_free(key);
    }
    return valid;
}

static RSA *generated(void) {
    BIGNUM *exponent = BN_new();
    RSA *key = RSA_new();
    unsigned char *at = bits;
    BN_set_word(exponent, RSA_F4);
    if (RSA_generate_key_ex(key, 2048, exponent, NULL) != 1) exit(2);
    BN_free(exponent);
    bits_len = (size_t)i2d_RSAPublicKey(key, &at);
    return key;
}

static void measure(RSA *key) {
    unsigned char digest[32];
    double here = 0, anew = 0, known = 0;
    int valid = 0, rounds = 50, runs = 60;
    RAND_bytes(message, (int)message_len);
    SHA256(message, message_len, digest);
    if (RSA_sign(NID_sha256, digest, 32, signature, &signature_len, key) != 1) exit(2);
    for (int run = 0; run < runs; run++) {
        LEAST(here, rounds, valid += ours(rounds));
        LEAST(anew, rounds, valid += fresh(rounds));
        LEAST(known, rounds, valid += kept(key, rounds));
    }
    signature[0] ^= 1;
    if (valid != 3 * rounds * runs || ours(1) != 0 || fresh(1) != 0) exit(3);
    printf("%zu octets: here %.1f us, OpenSSL with the key read %.1f us (%.2f times), with the key kept %.1f us (%.2f times)\n", message_len, here / 1e3,
           anew / 1e3, here / anew, known / 1e3, here / known);
}

int main(int argc, char **argv) {
    RSA *key = generated();
    for (int i = 1; i < argc; i++) {
        message_len = (size_t)atol(argv[i]);
        measure(key);
    }
    RSA_free(key);
    return 0;
}
