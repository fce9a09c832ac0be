/* SPDX-License-Identifier: BSD-3-Clause */
/* The version of evsched. c/Makefile reads it here, and c/versions holds the program, the crate for Rust, the man pages and the changelog to it. */
#ifndef EVSCHED_VERSION_H
#define EVSCHED_VERSION_H

#define EVSCHED_VERSION_MAJOR 0
#define EVSCHED_VERSION_MINOR 1
#define EVSCHED_VERSION_PATCH 0
#define EVSCHED_VERSION "0.1.0"

#ifdef __cplusplus
extern "C" {
#endif

/* The version of the library that the program runs with, as EVSCHED_VERSION is of the one that it was compiled for. */
const char *evsched_version(void);

#ifdef __cplusplus
}
#endif

#endif
