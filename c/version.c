/* SPDX-License-Identifier: BSD-3-Clause */
#include <evsched_version.h>

const char *evsched_version(void)
{
	return EVSCHED_VERSION;
}
