/* The inventory sheet of a column file. */
#ifndef SHEET_H
#define SHEET_H

/* Prints it, or the refusal's line, and answers the status; ends the command where it fails. */
int print_sheet(const char *path);

#endif
