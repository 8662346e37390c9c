/* nlog_status_name as a function of the library, for who can't take it from the header, as a script by ctypes. */
#define nlog_status_name name_of_header
#include "nlog.h"
#undef nlog_status_name

const char *nlog_status_name(nlog_status status);

const char *nlog_status_name(nlog_status status) { return name_of_header(status); }
