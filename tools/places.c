/* The file on the page: the lines of the faults, each in its item, and a little
 * of what surrounds that. A line's number is that of the library's fault, or is
 * counted from it.
 */

#include "screen.h"

#include <inttypes.h>
#include <string.h>

/* Of an item no more lines than this stand before a fault, or after it, fewer
 * where there are more faults than a few; and so many of what surrounds it. */
enum { FEW_FAULTS = 100, ITEM_LINES = 24, FEWER_LINES = 6, AROUND_LINES = 2 };

/* How far the page shows the file: up to `shown`, where the line of the number
 * `line` begins. The walk stands at the last faulty line. */
struct view {
    const struct page *page;
    FILE *to;
    struct walk walk;
    uint32_t most; /* lines of an item on either side of a fault */
    const uint8_t *end;
    const uint8_t *shown;
    uint32_t line;
};

static void put_statement(FILE *to, const struct statement *statement)
{
    fputs("<br>Stated: ", to);
    if (statement->stated == NULL) {
        fprintf(to, "no %.2s", statement->mark);
    } else {
        put_text(to, statement->stated, statement->length);
    }
    fprintf(to, "; counted: <code>%s</code>", statement->counted);
}

/* The rules broken at the line at which the walk stands, from the fault on. */
static void put_rules(const struct view *view, size_t at)
{
    const struct faults *found = view->page->found;
    struct statement statement;
    fputs("<ul>", view->to);
    for (size_t i = at; i < view->page->listed && found->offsets[i] == found->offsets[at]; i++) {
        fprintf(view->to, "<li><a href=\"#f%zu\">Rule %" PRIu32 "</a> ", i + 1, found->rules[i]);
        put_words(view->to, rule_in_words(found->rules[i]));
        if (find_statement(&view->walk, found->rules[i], &statement)) {
            put_statement(view->to, &statement);
        }
        fputs("</li>", view->to);
    }
    fputs("</ul>", view->to);
}

static void step_over(struct view *view, const struct reader *reader)
{
    view->shown = reader->rest;
    view->line += 1;
}

static void put_line(struct view *view, const struct reader *reader)
{
    fprintf(view->to, "<tr><th scope=\"row\" class=\"number\">%" PRIu32 "</th><td>", view->line);
    put_text(view->to, reader->text, reader->length);
    fputs("</td></tr>\n", view->to);
    step_over(view, reader);
}

static void put_faulty_line(struct view *view, size_t at)
{
    fprintf(view->to, "<tr id=\"l%" PRIu32 "\" class=\"bad\"><th scope=\"row\" class=\"number\">%" PRIu32 "</th><td>", view->line,
            view->line);
    put_text(view->to, view->walk.reader.text, view->walk.reader.length);
    put_rules(view, at);
    fputs("</td></tr>\n", view->to);
    step_over(view, &view->walk.reader);
}

/* Leaves out what stands before the line of that number, if that is worth it. */
static void leave_out(struct view *view, const uint8_t *next, uint32_t number)
{
    if (number > view->line + AROUND_LINES) {
        fprintf(view->to, "<tr class=\"gap\"><td></td><td>Lines %" PRIu32 " to %" PRIu32 " have no fault.</td></tr>\n", view->line,
                number - 1);
        view->shown = next;
        view->line = number;
    }
}

/* How many lines there are from a line back to the heading of its item, and to
 * what stands before that; none that is shown already. *first is the last of
 * them. */
static uint32_t lines_before(const struct view *view, const uint8_t **first)
{
    uint32_t lines = 0;
    uint32_t most = view->most;
    bool in_item = true;
    for (; *first > view->shown && lines < most; lines++) {
        if (in_item && view->end - *first >= 3 && memcmp(*first, "HD:", 3) == 0) {
            in_item = false;
            most = lines + AROUND_LINES;
        }
        *first = line_before(view->page->file->at, *first);
    }
    return lines;
}

static void put_before(struct view *view, const uint8_t *line)
{
    struct reader reader = { .rest = view->shown, .end = view->end };
    while (view->shown < line && next_line(&reader)) {
        put_line(view, &reader);
    }
}

/* The rest of the item, and what stands after it; not the next faulty line. */
static void put_after(struct view *view, const uint8_t *next)
{
    struct reader reader = { .rest = view->shown, .end = view->end };
    uint32_t most = view->most;
    bool in_item = true;
    for (uint32_t lines = 0; lines < most && view->shown < next && next_line(&reader); lines++) {
        if (in_item && starts(&reader, "HD:")) {
            in_item = false;
            most = lines + AROUND_LINES;
        }
        put_line(view, &reader);
    }
}

/* The faulty line of a fault that is the line's first, with what surrounds it. */
static void put_place(struct view *view, size_t at)
{
    const struct faults *found = view->page->found;
    const uint8_t *line = view->page->file->at + found->offsets[at];
    const uint8_t *first = line;
    uint32_t before = lines_before(view, &first);
    size_t next = at;
    leave_out(view, first, found->lines[at] - before);
    put_before(view, line);
    walk_to(&view->walk, found->offsets[at]);
    put_faulty_line(view, at);
    while (next < found->count && found->offsets[next] == found->offsets[at]) {
        next += 1;
    }
    put_after(view, next < found->count ? view->page->file->at + found->offsets[next] : view->end);
}

void put_places(const struct page *page)
{
    const struct faults *found = page->found;
    struct view view = {
        .page = page,
        .to = page->to,
        .walk = before_walk(page->file, found),
        .most = page->listed > FEW_FAULTS ? FEWER_LINES : ITEM_LINES,
        .end = before_lines(page->file->at, page->file->length).end,
        .shown = page->file->at,
        .line = 1,
    };
    fputs("<section aria-labelledby=\"file\">\n<h2 id=\"file\">In the file</h2>\n<table class=\"file\">\n"
          "<thead><tr><th scope=\"col\" class=\"number\">Line</th><th scope=\"col\">Text</th></tr></thead>\n<tbody>\n",
          page->to);
    for (size_t i = 0; i < page->listed; i++) {
        if (i == 0 || found->offsets[i] != found->offsets[i - 1]) {
            put_place(&view, i);
        }
    }
    const char *rest = view.shown == view.end         ? "End of the file."
                       : page->listed < found->count ? "The rest of the file, which has more faults, is not shown."
                                                     : "The rest of the file has no fault.";
    fprintf(page->to, "<tr class=\"gap\"><td></td><td>%s</td></tr>\n</tbody>\n</table>\n</section>\n", rest);
}
