
/* In the program the numbers of errors are those of Linux. Other systems number some of them differently. An error that is not listed
 * here keeps its number, plus OTHER_ERRORS. */
enum { OTHER_ERRORS = 100000 };

static const int errors[][2] = {
    {1, EPERM}, {2, ENOENT}, {3, ESRCH}, {4, EINTR}, {5, EIO}, {6, ENXIO}, {9, EBADF}, {11, EAGAIN}, {12, ENOMEM}, {13, EACCES}, {14, EFAULT},
    {16, EBUSY}, {17, EEXIST}, {19, ENODEV}, {20, ENOTDIR}, {21, EISDIR}, {22, EINVAL}, {23, ENFILE}, {24, EMFILE}, {25, ENOTTY}, {27, EFBIG},
    {28, ENOSPC}, {29, ESPIPE}, {30, EROFS}, {32, EPIPE}, {34, ERANGE}, {36, ENAMETOOLONG}, {40, ELOOP}, {75, EOVERFLOW}, {104, ECONNRESET},
    {110, ETIMEDOUT},
};
enum { ERRORS = sizeof errors / sizeof *errors };

static u32 import_rattle_errno(void)
{
    int at, number = errno;
    if (number == 0) return 0;
    for (at = 0; at < ERRORS; at++) if (errors[at][1] == number) return (u32)errors[at][0];
    return (u32)number + OTHER_ERRORS;
}

static int error_here(u32 number)
{
    int at;
    for (at = 0; at < ERRORS; at++) if ((u32)errors[at][0] == number) return errors[at][1];
    return number > OTHER_ERRORS ? (int)(number - OTHER_ERRORS) : (int)number;
}

static void import_rattle_set_errno(u32 number)
{
    errno = error_here(number);
}

/* The text of an error, cut to the room for it. */
static u32 import___xpg_strerror_r(u32 number, u64 to, u64 room)
{
    const char *text = strerror(error_here(number));
    size_t size = strlen(text);
    if (room == 0) return ERANGE;
    if (size > room - 1) size = (size_t)room - 1;
    memcpy(AT(to), text, size);
    store8(to + size, 0);
    return 0;
}

/* The arguments of the program, the first of which is its name. */
static char **words;
static u64 count;

/* Copies an argument and returns its length, -1 if there is none, or -2 if there is no room for it. */
static u64 import_rattle_arg(u64 at, u64 to, u64 room)
{
    size_t size;
    if (at >= count) return 0 - (u64)1;
    size = strlen(words[at]);
    memcpy(AT(to), words[at], size <= room ? size : (size_t)room);
    return size <= room ? size : 0 - (u64)2;
}

/* The most bytes that are read or written at once: every system allows as many. */
enum { MOST_AT_ONCE = 1 << 30 };

static unsigned at_once(u64 bytes)
{
    return bytes < MOST_AT_ONCE ? (unsigned)bytes : MOST_AT_ONCE;
}

/* Linux's O_NOCTTY and O_CLOEXEC, the flags of a file that is opened for reading. */
enum { LINUX_NOCTTY = 0x100, LINUX_CLOEXEC = 0x80000 };

static int opens_for_reading(u32 flags)
{
    if ((flags & ~(u32)(LINUX_NOCTTY | LINUX_CLOEXEC)) == 0) return 1;
    errno = EINVAL;
    return 0;
}

#ifdef _WIN32
/* A file's name in UTF-16. */
static wchar_t *wide(const char *name)
{
    int size = MultiByteToWideChar(CP_UTF8, 0, name, -1, NULL, 0);
    wchar_t *made = (wchar_t *)malloc((size_t)size * sizeof *made);
    if (made != NULL) MultiByteToWideChar(CP_UTF8, 0, name, -1, made, size);
    else errno = ENOMEM;
    return made;
}

static u32 import_open(u64 path, u32 flags, u64 more)
{
    wchar_t *name;
    int file = -1;
    (void)more;
    if (!opens_for_reading(flags) || (name = wide((const char *)AT(path))) == NULL) return (u32)-1;
    file = _wopen(name, _O_RDONLY | _O_BINARY | _O_NOINHERIT);
    free(name);
    return (u32)file;
}

static HANDLE handle_of(u32 file)
{
    return (HANDLE)_get_osfhandle((int)file);
}

static u32 import_isatty(u32 file)
{
    DWORD mode;
    return GetConsoleMode(handle_of(file), &mode) != 0;
}

static u32 import_close(u32 file)
{
    return (u32)_close((int)file);
}

static u64 import_read(u32 file, u64 to, u64 bytes)
{
    return (u64)(s64)_read((int)file, AT(to), at_once(bytes));
}

/* If a pipe has no reader, Windows reports an argument that is not valid. */
static u64 import_write(u32 file, u64 from, u64 bytes)
{
    int done = _write((int)file, AT(from), at_once(bytes));
    if (done < 0 && errno == EINVAL && GetFileType(handle_of(file)) == FILE_TYPE_PIPE) errno = EPIPE;
    return (u64)(s64)done;
}

/* An argument in UTF-8. */
static char *narrow(const wchar_t *word)
{
    int size = WideCharToMultiByte(CP_UTF8, 0, word, -1, NULL, 0, NULL, NULL);
    char *made = (char *)malloc((size_t)size);
    if (made != NULL) WideCharToMultiByte(CP_UTF8, 0, word, -1, made, size, NULL, NULL);
    return made;
}

/* Prepares the arguments and the standard streams, and returns whether there was memory for that. */
static int begin(int argc, char **argv)
{
    int at, is_there;
    wchar_t **given = CommandLineToArgvW(GetCommandLineW(), &argc);
    words = given != NULL ? (char **)malloc((size_t)argc * sizeof *words) : NULL;
    is_there = words != NULL;
    for (at = 0; is_there && at < argc; at++) is_there = (words[at] = narrow(given[at])) != NULL;
    (void)argv;
    count = (u64)argc;
    for (at = 0; at < 3; at++) _setmode(at, _O_BINARY);
    return is_there;
}
#else
#ifndef O_CLOEXEC
#define O_CLOEXEC 0
#endif

static u32 import_open(u64 path, u32 flags, u64 more)
{
    (void)more;
    if (!opens_for_reading(flags)) return (u32)-1;
    return (u32)open((const char *)AT(path), O_RDONLY | O_NOCTTY | O_CLOEXEC);
}

static u32 import_isatty(u32 file)
{
    return (u32)isatty((int)file);
}

static u32 import_close(u32 file)
{
    return (u32)close((int)file);
}

static u64 import_read(u32 file, u64 to, u64 bytes)
{
    return (u64)(s64)read((int)file, AT(to), at_once(bytes));
}

static u64 import_write(u32 file, u64 from, u64 bytes)
{
    return (u64)(s64)write((int)file, AT(from), at_once(bytes));
}

/* Prepares the arguments. A write to a pipe without a reader then fails, and does not end the program. */
static int begin(int argc, char **argv)
{
    words = argv;
    count = (u64)argc;
    return signal(SIGPIPE, SIG_IGN) != SIG_ERR;
}
#endif
