/*
 * Writes what the image of a job decodes to, as the command `show` does, with OpenSSL's ciphers and digests.
 *
 *     show_reference show < JOB
 *
 * It is what bench/show.sh times the program against. Of a job it reads the lines up to the image and trusts the rest.
 */
#include <openssl/evp.h>
#include <openssl/sha.h>
#include <stdbool.h>
#include <stdint.h>
#include <stdio.h>
#include <stdlib.h>
#include <string.h>

enum { EXTENT = 4096, FIXED = 26, SIGNATURE = 8, KEY = 16, MOST_PATH = 4095 * (1 + 3 * 255) };
enum { STATUS_MEMORY = 1, STATUS_USAGE = 2, STATUS_JOB = 3, STATUS_READ = 4, STATUS_WRITE = 5 };
static const uint64_t MOST_SIZE = 67108864;

typedef struct {
    const uint8_t *at;
    size_t length;
} Octets;

typedef struct {
    uint8_t key[KEY];
    uint8_t signature[SIGNATURE];
} Passphrase;

/* The text of the first cause of a bad file. */
typedef char Cause[80];

static void stop(int status, const char *why) {
    fprintf(stderr, "show_reference: %s\n", why);
    exit(status);
}

static uint64_t big_endian(const uint8_t *at, int octets) {
    uint64_t number = 0;
    while (octets-- > 0) number = number << 8 | *at++;
    return number;
}

/* ---- the output ---- */

static char line_of_hex[2 * EXTENT];
static char digits_of[256][2];

static void make_digits(void) {
    for (int octet = 0; octet < 256; octet++) {
        digits_of[octet][0] = "0123456789abcdef"[octet >> 4];
        digits_of[octet][1] = "0123456789abcdef"[octet & 15];
    }
}

static void write_text(const char *text, size_t length) {
    if (fwrite(text, 1, length, stdout) != length) stop(STATUS_WRITE, "write fault");
}

/* Writes at most an extent. */
static void write_hex(const uint8_t *at, size_t length) {
    for (size_t k = 0; k < length; k++) memcpy(line_of_hex + 2 * k, digits_of[at[k]], 2);
    write_text(line_of_hex, 2 * length);
}

static void print_hex(char *to, const uint8_t *at, size_t length) {
    for (size_t k = 0; k < length; k++) memcpy(to + 2 * k, digits_of[at[k]], 2);
    to[2 * length] = 0;
}

/* ---- the job ---- */

static Octets read_input(void) {
    size_t room = 1 << 20, length = 0;
    uint8_t *octets = malloc(room);
    while (octets) {
        size_t got = fread(octets + length, 1, room - length, stdin);
        length += got;
        if (got == 0) break;
        if (length == room) octets = realloc(octets, room *= 2);
    }
    if (!octets) stop(STATUS_MEMORY, "memory");
    if (ferror(stdin)) stop(STATUS_READ, "read fault");
    return (Octets){octets, length};
}

static Octets take(Octets *from, size_t length) {
    if (length > from->length) stop(STATUS_JOB, "bad job: it is cut");
    Octets taken = {from->at, length};
    from->at += length;
    from->length -= length;
    return taken;
}

/* Takes a line that begins with the word, and gives what follows the word. */
static Octets take_line(Octets *from, const char *word) {
    const uint8_t *end = memchr(from->at, '\n', from->length);
    if (!end) stop(STATUS_JOB, "bad job: a line is cut");
    Octets line = take(from, end - from->at);
    take(from, 1);
    if (line.length < strlen(word) || memcmp(line.at, word, strlen(word)) != 0) stop(STATUS_JOB, "bad job");
    take(&line, strlen(word));
    return line;
}

static int digit(uint8_t octet) {
    const char *found = octet ? strchr("0123456789abcdef", octet) : NULL;
    if (!found) stop(STATUS_JOB, "bad job: no digit");
    return (int)(found - "0123456789abcdef");
}

static size_t unhex(uint8_t *to, size_t room, Octets text) {
    if (text.length % 2 || text.length / 2 > room) stop(STATUS_JOB, "bad job: a length");
    for (size_t k = 0; k < text.length / 2; k++) to[k] = (uint8_t)(digit(text.at[2 * k]) << 4 | digit(text.at[2 * k + 1]));
    return text.length / 2;
}

/* The key-encryption key and the signature: SHA-512 applied 65,536 times to salt and passphrase, and once more. */
static Passphrase derive(Octets passphrase, Octets salt) {
    uint8_t first[8 + 64], kek[SHA512_DIGEST_LENGTH], last[SHA512_DIGEST_LENGTH];
    if (unhex(first, 8, salt) != 8) stop(STATUS_JOB, "bad job: the salt");
    size_t length = unhex(first + 8, 64, passphrase);
    if (length == 0) stop(STATUS_JOB, "bad job: the passphrase");
    SHA512(first, 8 + length, kek);
    for (int round = 1; round < 65536; round++) SHA512(kek, sizeof kek, kek);
    SHA512(kek, sizeof kek, last);
    Passphrase made;
    memcpy(made.key, kek, KEY);
    memcpy(made.signature, last, SIGNATURE);
    return made;
}

/* ---- packets ---- */

/* Takes the tag and the length of a packet, and gives its content; none where it can't be read. */
static bool take_packet(Octets *set, uint8_t tag, Octets *content) {
    Octets left = *set;
    if (left.length < 2 || left.at[0] != tag || left.at[1] > 223) return false;
    size_t length = left.at[1], head = 2;
    if (length >= 192) {
        if (left.length < 3) return false;
        length = (length - 192) * 256 + left.at[2] + 192;
        head = 3;
    }
    if (left.length - head < length) return false;
    take(&left, head);
    *content = take(&left, length);
    *set = left;
    return true;
}

typedef struct {
    uint8_t cipher;
    Octets wrapped;
    const uint8_t *signature;
} Pair;

static bool take_tag3(Octets *set, Pair *pair) {
    Octets left = *set, content;
    if (!take_packet(&left, 0x8c, &content) || content.length < 13 || content.length > 525) return false;
    if (content.at[0] != 4 || content.at[2] != 3 || content.at[3] != 1) return false;
    pair->cipher = content.at[1];
    pair->wrapped = (Octets){content.at + 13, content.length - 13};
    *set = left;
    return true;
}

static bool take_tag11(Octets *set, Pair *pair) {
    Octets left = *set, content;
    if (!take_packet(&left, 0xed, &content) || content.length < 14) return false;
    if (content.length != 14u + content.at[1]) return false;
    pair->signature = content.at + content.length - SIGNATURE;
    *set = left;
    return true;
}

/* Unwraps the file key of the first pair with our signature, or gives the first cause. */
static bool find_key(Octets set, const Passphrase *ours, EVP_CIPHER_CTX *ecb, uint8_t key[KEY], Cause cause) {
    const uint8_t *start = set.at - FIXED;
    Pair first = {0}, mine = {0};
    for (;;) {
        uint8_t tag = set.length ? set.at[0] : 0;
        if (tag != 0x8c && tag != 0xed && tag != 0x01) break;
        if (tag == 0x01) return sprintf(cause, "tag1 %zu", (size_t)(set.at - start)), false;
        Pair pair;
        if (!take_tag3(&set, &pair) || !take_tag11(&set, &pair))
            return sprintf(cause, "packet %zu", (size_t)(set.at - start)), false;
        if (!first.signature) first = pair;
        if (!mine.signature && memcmp(pair.signature, ours->signature, SIGNATURE) == 0) mine = pair;
    }
    if (!first.signature) return strcpy(cause, "nopacket"), false;
    if (!mine.signature) {
        char found[2 * SIGNATURE + 1], wanted[2 * SIGNATURE + 1];
        print_hex(found, first.signature, SIGNATURE);
        print_hex(wanted, ours->signature, SIGNATURE);
        return sprintf(cause, "wrongkey %s %s", found, wanted), false;
    }
    if (mine.cipher != 7 || mine.wrapped.length != KEY) return sprintf(cause, "cipher %d", mine.cipher), false;
    int made;
    if (!EVP_DecryptUpdate(ecb, key, &made, mine.wrapped.at, KEY)) stop(STATUS_MEMORY, "memory");
    return true;
}

/* ---- files ---- */

typedef struct {
    const Passphrase *ours;
    EVP_CIPHER_CTX *ecb, *cbc;
    EVP_MD_CTX *md5;
} Decoder;

typedef struct {
    uint64_t size, start;
    uint8_t key[KEY];
} Metadata;

/* Reads what stands at the head of the body or in the attribute, or gives the first cause. */
static bool read_metadata(Octets octets, bool in_attribute, const Decoder *with, Metadata *meta, Cause cause) {
    if (octets.length < FIXED) return sprintf(cause, "short %zu", octets.length), false;
    uint32_t m1 = (uint32_t)big_endian(octets.at + 8, 4), m2 = (uint32_t)big_endian(octets.at + 12, 4);
    if ((m1 ^ m2) != 0x3c81b7f5) return sprintf(cause, "marker %08x %08x", m1, m2), false;
    if (octets.at[16] != 3) return sprintf(cause, "version %d", octets.at[16]), false;
    if (octets.at[19] & 1) return strcpy(cause, "hmac"), false;
    if (!(octets.at[19] & 2)) return strcpy(cause, "notencrypted"), false;
    uint64_t product = big_endian(octets.at + 20, 4) * big_endian(octets.at + 24, 2);
    if (!in_attribute && (product % 4096 || product < 8192 || product > 1048576))
        return sprintf(cause, "headersize %llu", (unsigned long long)product), false;
    size_t end = octets.length < 4096 ? octets.length : 4096;
    if (!find_key((Octets){octets.at + FIXED, end - FIXED}, with->ours, with->ecb, meta->key, cause)) return false;
    meta->size = big_endian(octets.at, 8);
    if (meta->size > MOST_SIZE) return sprintf(cause, "toolarge %llu", (unsigned long long)meta->size), false;
    meta->start = in_attribute ? 0 : product;
    return true;
}

static void md5(EVP_MD_CTX *context, const uint8_t *at, size_t length, uint8_t digest[16]) {
    if (!EVP_DigestInit_ex(context, EVP_md5(), NULL) || !EVP_DigestUpdate(context, at, length) ||
        !EVP_DigestFinal_ex(context, digest, NULL))
        stop(STATUS_MEMORY, "memory");
}

/* Writes the content in hexadecimal, extent by extent. */
static void write_content(Octets body, const Metadata *meta, const Decoder *with) {
    uint8_t seed[32], iv[16], plain[EXTENT];
    md5(with->md5, meta->key, KEY, seed);
    if (!EVP_DecryptInit_ex(with->cbc, EVP_aes_128_cbc(), NULL, meta->key, seed)) stop(STATUS_MEMORY, "memory");
    for (uint64_t extent = 0; extent * EXTENT < meta->size; extent++) {
        memset(seed + 16, 0, 16);
        sprintf((char *)seed + 16, "%llu", (unsigned long long)extent);
        md5(with->md5, seed, sizeof seed, iv);
        int made;
        if (!EVP_DecryptInit_ex(with->cbc, NULL, NULL, NULL, iv) || !EVP_CIPHER_CTX_set_padding(with->cbc, 0) ||
            !EVP_DecryptUpdate(with->cbc, plain, &made, body.at + meta->start + extent * EXTENT, EXTENT))
            stop(STATUS_MEMORY, "memory");
        uint64_t left = meta->size - extent * EXTENT;
        write_hex(plain, left < EXTENT ? left : EXTENT);
    }
}

/* Writes what follows the path in the line of a file. */
static void show_file(Octets body, const Octets *attribute, const Decoder *with) {
    if (!attribute && body.length == 0) {
        write_text(" empty\n", 7);
        return;
    }
    Cause cause;
    Metadata meta;
    bool good = read_metadata(attribute ? *attribute : body, attribute != NULL, with, &meta, cause);
    uint64_t need = good ? meta.start + (meta.size + EXTENT - 1) / EXTENT * EXTENT : 0;
    if (good && body.length < need) {
        good = false;
        sprintf(cause, "shortdata %zu %llu", body.length, (unsigned long long)need);
    }
    if (!good) {
        printf(" bad %s\n", cause);
        return;
    }
    printf(" good %llu %s", (unsigned long long)meta.size, meta.size ? "" : "-");
    write_content(body, &meta, with);
    write_text("\n", 1);
}

/* ---- the tree ---- */

/* Puts `/` and the spelled name at the path's end, and gives the new end. */
static size_t put_name(char *path, size_t end, Octets name) {
    path[end++] = '/';
    for (size_t k = 0; k < name.length; k++) {
        uint8_t octet = name.at[k];
        if (octet > 0x20 && octet < 0x7f && octet != '%' && octet != '/') {
            path[end++] = (char)octet;
        } else {
            path[end++] = '%';
            memcpy(path + end, digits_of[octet], 2);
            end += 2;
        }
    }
    return end;
}

static void show_tree(Octets image, const Decoder *with) {
    static char path[MOST_PATH];
    static size_t ends[4096 + 1];
    Octets magic = take(&image, 8);
    if (memcmp(magic.at, "ECRYIMG1", 8) != 0) stop(STATUS_JOB, "bad job: the image");
    uint64_t count = big_endian(take(&image, 4).at, 4);
    uint64_t deepest = 1;
    for (uint64_t node = 1; node <= count && count < 4096; node++) {
        Octets head = take(&image, 4);
        uint64_t level = big_endian(head.at, 2);
        uint8_t kind = head.at[2];
        if (level < 1 || level > deepest || kind > 1) stop(STATUS_JOB, "bad job: the image");
        ends[level] = put_name(path, ends[level - 1], take(&image, head.at[3]));
        deepest = kind == 0 ? level + 1 : level;
        printf("%c %llu ", kind == 0 ? 'd' : 'f', (unsigned long long)node);
        write_text(path, ends[level]);
        if (kind == 0) {
            write_text("\n", 1);
            continue;
        }
        bool flag = take(&image, 1).at[0];
        Octets attribute = {0};
        if (flag) attribute = take(&image, big_endian(take(&image, 4).at, 4));
        Octets body = take(&image, big_endian(take(&image, 4).at, 4));
        show_file(body, flag ? &attribute : NULL, with);
    }
}

static Octets take_image(Octets *job) {
    Octets number = take_line(job, "image ");
    size_t length = 0;
    for (size_t k = 0; k < number.length; k++) length = length * 10 + (size_t)digit(number.at[k]);
    return take(job, length);
}

int main(int count, char **words) {
    if (count != 2 || strcmp(words[1], "show") != 0) stop(STATUS_USAGE, "usage: show_reference show < JOB");
    make_digits();
    Octets job = read_input();
    take_line(&job, "ecryptfs-job 1");
    Octets passphrase = take_line(&job, "passphrase ");
    Passphrase ours = derive(passphrase, take_line(&job, "salt "));
    take_line(&job, "namesalt ");
    take_line(&job, "names plain");
    take_line(&job, "meta ");
    take_line(&job, "random ");
    Octets image = take_image(&job);
    Decoder with = {&ours, EVP_CIPHER_CTX_new(), EVP_CIPHER_CTX_new(), EVP_MD_CTX_new()};
    if (!with.ecb || !with.cbc || !with.md5 || !EVP_DecryptInit_ex(with.ecb, EVP_aes_128_ecb(), NULL, ours.key, NULL) ||
        !EVP_CIPHER_CTX_set_padding(with.ecb, 0))
        stop(STATUS_MEMORY, "memory");
    static char buffer[1 << 16];
    setvbuf(stdout, buffer, _IOFBF, sizeof buffer);
    printf("ecryptfs-show 1\n");
    show_tree(image, &with);
    printf("end\n");
    if (fflush(stdout) != 0) stop(STATUS_WRITE, "write fault");
    return 0;
}
