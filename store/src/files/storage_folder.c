/* A folder as a storage of relkvanu_storage.h: held open, with a marker that names the job. */
#include "files.h"
#include "folder.h"

#include <errno.h>
#include <fcntl.h>
#include <stdio.h>
#include <stdlib.h>
#include <string.h>
#include <unistd.h>

enum { FILES_MODE = 0666 };

/* An open folder. Its texts are its own. */
struct opened {
    struct rks_folder folder;
    char *prefix, *suffix, *marker, *part, *text; /* part: the marker's while it is not whole; text: what the marker says */
};

static void free_opened(struct opened *it) {
    rks_close(it->folder.fd);
    free(it->prefix);
    free(it->suffix);
    free(it->marker);
    free(it->part);
    free(it->text);
    free(it);
}

static int check_marker(const void *with) {
    const struct opened *it = with;
    return rks_marker_says(it->folder.fd, it->marker, it->text);
}

static bool is_regular(const void *with, const struct dirent *entry) {
    const struct opened *it = with;
    struct stat found;
    if (entry->d_type != DT_UNKNOWN) {
        return entry->d_type == DT_REG;
    }
    return fstatat(it->folder.fd, entry->d_name, &found, AT_SYMLINK_NOFOLLOW) == 0 && S_ISREG(found.st_mode);
}

static bool end_listing(void *with, const relkvanu_storage_file *files, size_t files_len) {
    (void)with;
    (void)files;
    (void)files_len;
    return false;
}

/* The marker, in a folder without state files. A process that was killed here finds its own marker, or a part of it. */
static int begin(const struct opened *it) {
    int status = rks_folder_list(&it->folder, 1, end_listing, NULL);
    if (status != RELKVANU_STORAGE_OK) {
        return status == RELKVANU_STORAGE_ENDED ? RELKVANU_STORAGE_NOT_EMPTY : status;
    }
    status = check_marker(it);
    if (status != RELKVANU_STORAGE_NOT_THERE) {
        return status;
    }
    if (unlinkat(it->folder.fd, it->part, 0) != 0 && errno != ENOENT) {
        return RELKVANU_STORAGE_FAILED;
    }
    status = rks_folder_make(&it->folder, it->part, it->marker, it->text, strlen(it->text));
    return status == RELKVANU_STORAGE_PRESENT ? RELKVANU_STORAGE_OK : status; /* another process began: whose it is, the check says */
}

static bool is_name(const char *text) {
    return text[0] != 0 && strchr(text, '/') == NULL && strcmp(text, ".") != 0 && strcmp(text, "..") != 0;
}

static const char *text_or(const char *text, const char *otherwise) {
    return text == NULL ? otherwise : text;
}

static bool are_valid(const relkvanu_storage_options *options) {
    const char *prefix = text_or(options->prefix, ""), *suffix = text_or(options->suffix, "");
    bool has_zeros = true;
    for (size_t i = 0; i < sizeof options->reserved / sizeof *options->reserved; i++) {
        has_zeros = has_zeros && options->reserved[i] == 0;
    }
    return has_zeros && (options->flags & ~RELKVANU_STORAGE_NEW) == 0 && options->path != NULL && options->job != NULL &&
           options->job[0] != 0 && strchr(options->job, '\n') == NULL && strchr(prefix, '/') == NULL && strchr(suffix, '/') == NULL &&
           strlen(prefix) + strlen(suffix) <= RELKVANU_STORAGE_MOST_AFFIX &&
           (options->marker_name == NULL || (is_name(options->marker_name) && strlen(options->marker_name) <= RELKVANU_STORAGE_MOST_AFFIX));
}

/* Copies the texts. Returns false if there is no memory. */
static bool has_texts(struct opened *it, const relkvanu_storage_options *options) {
    it->prefix = strdup(text_or(options->prefix, ""));
    it->suffix = strdup(text_or(options->suffix, ""));
    if (options->marker_name != NULL) {
        it->marker = strdup(options->marker_name);
    } else if (asprintf(&it->marker, "%s.relkvanu-storage", text_or(options->prefix, "")) < 0) {
        it->marker = NULL;
    }
    if (it->marker == NULL || asprintf(&it->part, "%s.part", it->marker) < 0) {
        it->part = NULL;
    }
    if (options->marker_text != NULL) {
        it->text = strdup(options->marker_text);
    } else if (asprintf(&it->text, "relkvanu: state files of the job %s\n", options->job) < 0) {
        it->text = NULL;
    }
    return it->prefix != NULL && it->suffix != NULL && it->part != NULL && it->text != NULL;
}

static int open_folder(struct opened *it, const relkvanu_storage_options *options) {
    uint64_t file;
    if (!has_texts(it, options)) {
        return RELKVANU_STORAGE_NO_MEMORY;
    }
    it->folder.prefix = it->prefix;
    it->folder.suffix = it->suffix;
    if (rks_folder_names(&it->folder, it->marker, &file) || rks_folder_names(&it->folder, it->part, &file)) {
        return RELKVANU_STORAGE_BAD_ARGUMENT;
    }
    it->folder.fd = open(options->path, O_RDONLY | O_DIRECTORY | O_CLOEXEC);
    if (it->folder.fd < 0) {
        return RELKVANU_STORAGE_NOT_THERE;
    }
    int status = (options->flags & RELKVANU_STORAGE_NEW) != 0 ? begin(it) : RELKVANU_STORAGE_OK;
    return status == RELKVANU_STORAGE_OK ? check_marker(it) : status;
}

int relkvanu_storage_open_folder(relkvanu_storage *storage, const relkvanu_storage_options *options) {
    *storage = (relkvanu_storage){.with = NULL};
    if (!are_valid(options)) {
        return RELKVANU_STORAGE_BAD_ARGUMENT;
    }
    struct opened *it = calloc(1, sizeof *it);
    if (it == NULL) {
        return RELKVANU_STORAGE_NO_MEMORY;
    }
    it->folder = (struct rks_folder){.fd = -1, .mode = FILES_MODE, .check = check_marker, .is_listed = is_regular, .with = it};
    int status = open_folder(it, options);
    if (status != RELKVANU_STORAGE_OK) {
        int error = errno;
        free_opened(it);
        errno = error;
        return status;
    }
    *storage = rks_folder_storage(&it->folder);
    return RELKVANU_STORAGE_OK;
}

void relkvanu_storage_close_folder(relkvanu_storage *storage) {
    if (storage->with != NULL) {
        free_opened(storage->with);
        *storage = (relkvanu_storage){.with = NULL};
    }
}
