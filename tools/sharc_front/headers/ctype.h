#ifndef SHARC_FRONT_CTYPE_H
#define SHARC_FRONT_CTYPE_H
static int isupper(int c) { return c >= 'A' && c <= 'Z'; }
static int islower(int c) { return c >= 'a' && c <= 'z'; }
static int isalpha(int c) { return c >= 'A' && c <= 'Z' || c >= 'a' && c <= 'z'; }
static int isdigit(int c) { return c >= '0' && c <= '9'; }
static int isalnum(int c) { return c >= 'A' && c <= 'Z' || c >= 'a' && c <= 'z' || c >= '0' && c <= '9'; }
static int isspace(int c) { return c == ' ' || c >= '\t' && c <= '\r'; }
static int isprint(int c) { return c >= ' ' && c <= '~'; }
static int ispunct(int c) { return c > ' ' && c <= '~' && !isalnum(c); }
static int isxdigit(int c) { return c >= '0' && c <= '9' || c >= 'A' && c <= 'F' || c >= 'a' && c <= 'f'; }
static int toupper(int c) { return c >= 'a' && c <= 'z' ? c - 'a' + 'A' : c; }
static int tolower(int c) { return c >= 'A' && c <= 'Z' ? c - 'A' + 'a' : c; }
#endif
