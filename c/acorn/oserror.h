/*
 * oserror.h: a status of vervainfile as an error of RISC OS. Compile oserror.c with the program.
 */
#ifndef ACORN_OSERROR_H
#define ACORN_OSERROR_H

#include <stdint.h>

#ifdef __cplusplus
extern "C" {
#endif

/* A number, which is the status and not one of Acorn's; and a text, which a zero ends. */
typedef struct os_error {
    uint32_t errnum;
    char errmess[252];
} os_error;

/* The error that a status is: null for VF_OK. It stays, and is not to be written to. */
os_error *os_error_of(uint32_t status);

#ifdef __cplusplus
}
#endif

#endif
