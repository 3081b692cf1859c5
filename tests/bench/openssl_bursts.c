// OpenSSL's XTS and CBC in short bursts, the best of which count, as bench times its own:
// 4 rounds over 32 KiB, with the IV set for each sector. It prints lines as bench does.
#include <openssl/evp.h>
#include <stdint.h>
#include <stdio.h>
#include <stdlib.h>
#include <string.h>
#include <time.h>

enum { PIECE = 32768, ROUNDS = 4 };

static unsigned char piece[PIECE];
static const unsigned char key[65] = "0123456789abcdefghijklmnopqrstuvwxyzABCDEFGHIJKLMNOPQRSTUVWXYZ-_";

static uint64_t now(void) {
    struct timespec t;
    clock_gettime(CLOCK_MONOTONIC, &t);
    return (uint64_t)t.tv_sec * 1000000000u + (uint64_t)t.tv_nsec;
}

// MiB a second of the best burst.
static double rate(const EVP_CIPHER *cipher, int sector, int seal, int bursts) {
    EVP_CIPHER_CTX *context = EVP_CIPHER_CTX_new();
    unsigned char iv[16] = {0};
    int moved;
    uint64_t best = UINT64_MAX;
    if (!context || !EVP_CipherInit_ex(context, cipher, NULL, key, iv, seal)) exit(1);
    EVP_CIPHER_CTX_set_padding(context, 0);
    for (int burst = 0; burst < bursts; burst++) {
        uint64_t start = now();
        for (int round = 0; round < ROUNDS; round++)
            for (int at = 0; at < PIECE; at += sector) {
                iv[0] = (unsigned char)(at / 512);
                EVP_CipherInit_ex(context, NULL, NULL, NULL, iv, seal);
                EVP_CipherUpdate(context, piece + at, &moved, piece + at, sector);
            }
        uint64_t time = now() - start;
        if (time < best) best = time;
    }
    EVP_CIPHER_CTX_free(context);
    return (double)PIECE * ROUNDS / 1048576.0 / ((double)best / 1e9);
}

static void print(const char *name, int bytes, const EVP_CIPHER *cipher, int bursts) {
    for (int sector = 512; sector <= 4096; sector *= 8)
        printf("%s %d %d %d 1 %.0f %.0f\n", name, bytes, sector, PIECE, rate(cipher, sector, 1, bursts), rate(cipher, sector, 0, bursts));
}

int main(int count, char **words) {
    int bursts = count > 1 ? atoi(words[1]) : 100;
    print("aes-xts-plain64", 32, EVP_aes_128_xts(), bursts);
    print("aes-xts-plain64", 64, EVP_aes_256_xts(), bursts);
    print("aes-cbc-essiv:sha256", 16, EVP_aes_128_cbc(), bursts);
    print("aes-cbc-essiv:sha256", 32, EVP_aes_256_cbc(), bursts);
    return 0;
}
