#include "tls_files.h"

#include <errno.h>
#include <stdio.h>
#include <string.h>
#include <sys/stat.h>

#include "log.h"

/* Marks in the lines of a PEM file: the beginning of its content, and an encrypted key in its newer and older form. */
static const char CERTIFICATE[] = "CERTIFICATE-----", KEY[] = "PRIVATE KEY-----", BEGIN[] = "-----BEGIN ";
static const char ENCRYPTED[] = "-----BEGIN ENCRYPTED ", ENCRYPTED_BEFORE[] = "Proc-Type: 4,ENCRYPTED";

/*
 * Opens a regular file. A pipe could be read once alone, and opening it could block. Returns NULL with errno otherwise.
 */
static FILE *open_regular(const char *name) {
    struct stat status;
    if (stat(name, &status))
        return NULL;
    if (S_ISREG(status.st_mode))
        return fopen(name, "r");
    errno = S_ISDIR(status.st_mode) ? EISDIR : EINVAL;
    return NULL;
}

/* Checks one file, whose content has this mark. */
static bool check_file(const char *option, const char *name, const char *content) {
    char line[256];
    bool has_content = false, is_encrypted = false, is_key = content == KEY;
    FILE *file = name ? open_regular(name) : NULL;
    if (!name)
        return true;
    if (!file)
        return log_always("cannot read the file of %s: %s: %s", option, name, strerror(errno)), false;
    while (fgets(line, sizeof line, file)) {
        bool begins = !strncmp(line, BEGIN, strlen(BEGIN));
        has_content = has_content || (begins && strstr(line, content));
        is_encrypted = is_encrypted || !strncmp(line, ENCRYPTED, strlen(ENCRYPTED)) ||
                       !strncmp(line, ENCRYPTED_BEFORE, strlen(ENCRYPTED_BEFORE));
    }
    int error = ferror(file) ? errno : 0;
    fclose(file);
    if (error)
        return log_always("cannot read the file of %s: %s: %s", option, name, strerror(error)), false;
    if (!has_content)
        return log_always("the file of %s has no %s in PEM: %s", option, is_key ? "private key" : "certificate", name),
               false;
    if (is_encrypted && is_key)
        return log_always("the key of %s is encrypted, and its password cannot be given: %s", option, name), false;
    return true;
}

bool tls_files_check(const struct options *options) {
    return check_file("--cafile", options->cafile, CERTIFICATE) && check_file("--cert", options->cert, CERTIFICATE) &&
           check_file("--key", options->key, KEY);
}
