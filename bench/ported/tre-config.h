/* What configure would write for TRE: eight-bit characters, and matches with errors. */
#define HAVE_SYS_TYPES_H 1
#define TRE_APPROX 1
#define TRE_VERSION "0.8.0"
