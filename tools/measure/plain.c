/* Draws a CSV file of at most 64 columns as a grid of ASCII. docs/PERFORMANCE.md uses it to show the least time that a drawing can
 * take. It counts each byte as a column. It replaces a line break in a field by a space. It checks nothing. */
#include <stdio.h>
#include <stdlib.h>
#include <string.h>

static size_t widths[64];
static int columns;
static const char *end;

/* Copies the field at p without its quotes. Returns the place after the field's delimiter. */
static const char *read_field(const char *p, char *field, size_t *length, int *is_last) {
  int quoted = p < end && *p == '"';
  size_t n = 0;
  for (p += quoted; p < end; p++) {
    if (*p == '"' && quoted) {
      if (p + 1 == end || p[1] != '"') {
        quoted = 0;
        continue;
      }
      p++;
    } else if (!quoted && (*p == ',' || *p == '\n')) {
      break;
    }
    field[n++] = *p == '\n' ? ' ' : *p;
  }
  *length = n;
  *is_last = p == end || *p == '\n';
  return p < end ? p + 1 : p;
}

static void draw_frame(void) {
  putchar('+');
  for (int i = 0; i < columns; i++) {
    for (size_t k = 0; k < widths[i] + 2; k++) putchar('-');
    putchar('+');
  }
  putchar('\n');
}

int main(int count, char **arguments) {
  FILE *file = count == 2 ? fopen(arguments[1], "rb") : NULL;
  if (!file) return 2;
  fseek(file, 0, SEEK_END);
  size_t size = ftell(file), length;
  rewind(file);
  char *text = malloc(size), line[65536];
  if (!text || fread(text, 1, size, file) != size) return 1;
  end = text + size;
  for (const char *p = text; p < end;) {
    for (int i = 0, is_last = 0; !is_last; i++) {
      p = read_field(p, line, &length, &is_last);
      if (i == columns) columns++;
      if (length > widths[i]) widths[i] = length;
    }
  }
  draw_frame();
  for (const char *p = text; p < end;) {
    size_t at = 0;
    line[at++] = '|';
    for (int i = 0, is_last = 0; !is_last; i++) {
      line[at++] = ' ';
      p = read_field(p, line + at, &length, &is_last);
      memset(line + at + length, ' ', widths[i] - length + 1);
      at += widths[i] + 1;
      line[at++] = '|';
    }
    line[at++] = '\n';
    fwrite(line, 1, at, stdout);
  }
  draw_frame();
  return 0;
}
