/*
 * oserror.c: an error for each status, with its text.
 */
#include "oserror.h"
#include "vervainfile.h"

#define ERROR(status, text) {status, text},

static os_error errors[] = {VF_STATUS_TEXTS(ERROR){UINT32_MAX, "no status has this number"}};

enum { LAST = sizeof errors / sizeof *errors - 1 };

os_error *os_error_of(uint32_t status)
{
    int i = 0;
    if (status == VF_OK)
        return NULL;
    while (i < LAST && errors[i].errnum != status)
        i++;
    return &errors[i];
}
