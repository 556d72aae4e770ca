/* OpenSSL as a worker: SHAKE256 and KMAC are its own; sealing, opening and the KMAC generator's draws are made of its KMACXOF256. It has no cSHAKE256. */
#include <openssl/core_names.h>
#include <openssl/crypto.h>
#include <openssl/evp.h>
#include <openssl/params.h>
#include <string.h>

#include "work.h"

static EVP_MAC_CTX *mac_context(void)
{
    static EVP_MAC_CTX *context;
    if (context == NULL)
        context = EVP_MAC_CTX_new(EVP_MAC_fetch(NULL, "KMAC-256", NULL));
    return context;
}

static EVP_MD_CTX *new_digest(void)
{
    EVP_MD_CTX *context = EVP_MD_CTX_new();
    EVP_DigestInit_ex(context, EVP_shake256(), NULL);
    return context;
}

/* Whole blocks of SHAKE256, in a context that takes nothing else: OpenSSL's permutation cannot be called by itself. */
static void permutation(size_t runs)
{
    static EVP_MD_CTX *context;
    if (context == NULL)
        context = new_digest();
    EVP_DigestUpdate(context, work.text, BLOCK * runs);
}

static void shake256(size_t size)
{
    static EVP_MD_CTX *context;
    if (context == NULL)
        context = new_digest();
    EVP_DigestInit_ex(context, EVP_shake256(), NULL);
    EVP_DigestUpdate(context, work.text, size);
    EVP_DigestFinalXOF(context, work.out, OUT);
}

static EVP_MAC_CTX *started(const uint8_t *key, size_t key_length, const void *custom, size_t custom_length, int xof, size_t size)
{
    OSSL_PARAM params[] = {OSSL_PARAM_construct_int(OSSL_MAC_PARAM_XOF, &xof), OSSL_PARAM_construct_size_t(OSSL_MAC_PARAM_SIZE, &size),
                           OSSL_PARAM_construct_octet_string(OSSL_MAC_PARAM_CUSTOM, (void *)custom, custom_length), OSSL_PARAM_construct_end()};
    EVP_MAC_init(mac_context(), key, key_length, params);
    return mac_context();
}

static void mac(const uint8_t *key, const uint8_t *custom, size_t custom_length, int xof, const uint8_t *message, size_t size, uint8_t *out, size_t length)
{
    EVP_MAC_CTX *context = started(key, KEY, custom, custom_length, xof, length);
    EVP_MAC_update(context, message, size);
    EVP_MAC_final(context, out, &length, length);
}

static void kmac256(size_t size) { mac(work.key, work.custom, CUSTOM, 0, work.text, size, work.out, OUT); }

static void kmacxof256(size_t size) { mac(work.key, work.custom, CUSTOM, 1, work.text, size, work.out, OUT); }

static void output(size_t size) { mac(work.key, work.custom, CUSTOM, 1, work.text, MESSAGE, work.out, size); }

static void session(size_t piece)
{
    EVP_MAC_CTX *context = started(work.key, KEY, work.custom, CUSTOM, 1, OUT);
    for (size_t at = 0; at < MOST; at += piece)
        EVP_MAC_update(context, work.text + at, MOST - at < piece ? MOST - at : piece);
    size_t length;
    EVP_MAC_final(context, work.out, &length, OUT);
}

/* The key stream of a text into a buffer of its own: OpenSSL gives an output in one piece only. */
static uint8_t stream[KEY + MOST];

static void combined(const uint8_t *text, size_t size)
{
    for (size_t i = 0; i < size; i++)
        work.out[i] = text[i] ^ stream[KEY + i];
}

static void sealing(size_t size)
{
    mac(work.key, work.iv, IV, 1, work.text, 0, stream, KEY + size);
    combined(work.text, size);
    mac(stream, work.iv, 0, 1, work.out, size, work.tag, TAG);
}

static void opening(size_t size)
{
    uint8_t tag[TAG];
    mac(work.key, work.iv, IV, 1, work.text, 0, stream, KEY + size);
    mac(stream, work.iv, 0, 1, work.sealed, size, tag, TAG);
    work.answer = CRYPTO_memcmp(tag, work.seal_tag, TAG) == 0 ? 0 : 8;
    if (work.answer == 0)
        combined(work.sealed, size);
}

/* Each piece goes into a buffer of its own, for the same reason. */
static void kmac_drawing(size_t size)
{
    uint8_t piece[SEED_KEY + PIECE];
    memcpy(piece, work.drawing_key, SEED_KEY);
    for (size_t at = 0; at < size; at += PIECE) {
        size_t part = size - at < PIECE ? size - at : PIECE, length;
        EVP_MAC_CTX *context = started(piece, SEED_KEY, "KMAC-DRNG generate", 18, 1, SEED_KEY + part);
        EVP_MAC_update(context, work.name, NAME);
        EVP_MAC_update(context, (const uint8_t[]){NAME}, 1);
        EVP_MAC_final(context, piece, &length, SEED_KEY + part);
        memcpy(work.out + at, piece + SEED_KEY, part);
    }
}

const struct worker openssl = {"OpenSSL",
                               {permutation, shake256, NULL, kmac256, kmacxof256, output, session, sealing, opening, NULL, kmac_drawing},
                               1u << PERMUTATION, NULL};
