/* What a worker says on its standard error, named line by line, with the end of it kept. */
#ifndef LOG_H
#define LOG_H

/* Lets a process of its own read this process's standard error from now on, and that of whatever it becomes. Each line
 * goes to where standard error went, after the worker's name, and the last of them into the file errors/NAME of the
 * service's folder. Where there is no room for that, standard error stays as it is. */
void begin_log(const char *folder, const char *name);

#endif
