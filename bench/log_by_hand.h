/* Commits to the log of a volume of layout 5 or 6 without the library. The functions make the same
   writes and syncs as the library. */
#ifndef LOG_BY_HAND_H
#define LOG_BY_HAND_H

/* The number of logs, each of a volume of its own. */
#define LOGS_BY_HAND 2

/* Chooses the log that all other functions use. */
void choose_log(unsigned which);

/* Open and close the log of a new volume that has one file. */
void open_log(const char *path);
void close_log(void);

/* Call this before a commit copies its pages to `kept`, which has the file of the last commit. If
   half of the log is in use, the call writes all committed pages home, and a start behind these
   commits. The next commit selects this start. */
void write_commits_home(const unsigned char *kept);

/* Writes all commits home, so that the log has no commits. */
void empty_log(const unsigned char *kept);

/* Commits `count` pages. Their numbers are in increasing order. `kept` has their bytes. */
void append_to_log(const int *page, int count, const unsigned char *kept);

#endif
