/* The listing as a page for the screen: the faults in words, each with a link to
 * its place in the file below; there its item, and a little of what surrounds
 * it. Only so much of a file stands on the page that a browser opens it.
 *
 * The page is one file with no script. What comes from outside is written by
 * markup.c alone; and the page's policy lets a browser run and fetch nothing.
 */

#define _POSIX_C_SOURCE 200809L /* for open_memstream */

#include "certis.h"
#include "screen.h"

#include <inttypes.h>
#include <stdlib.h>

/* The faults that are listed where --most says nothing. */
enum { PAGE_FAULTS = 500 };

static const char STYLE[] =
    ":root{color-scheme:light dark;--ink:#1c2329;--soft:#55606b;--paper:#fff;--line:#d5dbe1;--link:#0a51a1;"
    "--bad:#9c1c1c;--tint:#fcf0ee;--mark:#f8c9c2;--good:#1a6638;--hint:#fbf4dc}\n"
    "@media (prefers-color-scheme:dark){:root{--ink:#e3e7eb;--soft:#a4afba;--paper:#14181c;--line:#343c45;"
    "--link:#8fc1ff;--bad:#ff9d92;--tint:#2a1c1c;--mark:#77302a;--good:#83d39d;--hint:#2b2716}}\n"
    "*{box-sizing:border-box}\n"
    "body{margin:0 auto;max-width:62rem;padding:1.5rem 1rem 4rem;background:var(--paper);color:var(--ink);"
    "font:1rem/1.5 system-ui,sans-serif}\n"
    "h1{margin:0 0 .75rem;font-size:1.75rem;line-height:1.2}h1.bad{color:var(--bad)}h1.good{color:var(--good)}\n"
    "h2{margin:2.5rem 0 .75rem;font-size:1.2rem}\n"
    "dl{display:flex;flex-wrap:wrap;gap:.5rem 2rem;margin:0}dt{color:var(--soft);font-size:.85rem}"
    "dd{margin:0;overflow-wrap:anywhere}\n"
    "nav{margin-top:1rem}nav a{margin-right:1.25rem}\n"
    "a{color:var(--link);text-underline-offset:.15em}a:focus-visible{outline:3px solid var(--link);outline-offset:2px}\n"
    ".hint{margin:1rem 0 0;padding:.5rem .75rem;background:var(--hint);border-left:4px solid var(--soft)}\n"
    "table{width:100%;border-collapse:collapse}\n"
    "th,td{padding:.35rem .75rem .35rem 0;text-align:left;vertical-align:top}\n"
    "thead th{color:var(--soft);font-size:.85rem;font-weight:normal}\n"
    ".list td,.list thead th{border-bottom:1px solid var(--line)}\n"
    ".number{text-align:right;white-space:nowrap;font-variant-numeric:tabular-nums}\n"
    ".list td:last-child{width:100%}.list .number{padding-right:1.25rem}"
    ".list a{display:inline-block;margin:-.2rem -.5rem;padding:.2rem .5rem}\n"
    ".file th,.file td{padding-top:.1rem;padding-bottom:.1rem}\n"
    ".file th{padding-left:.5rem;color:var(--soft);font-weight:normal;-webkit-user-select:none;user-select:none}\n"
    ".file td:last-child{width:100%;border-left:1px solid var(--line);padding-left:.75rem}\n"
    "code,.file th{font:.9em/1.5 ui-monospace,\"DejaVu Sans Mono\",Consolas,monospace}\n"
    "code{white-space:pre-wrap;overflow-wrap:anywhere}\n"
    "mark{background:var(--mark);color:inherit}\n"
    ".bad th,.bad td{background:var(--tint);border-top:2px solid var(--paper)}.bad th{color:var(--bad);font-weight:bold}"
    ".file .bad td:last-child{border-left:3px solid var(--bad)}\n"
    "tr:target th,tr:target td{box-shadow:inset 0 2px var(--bad),inset 0 -2px var(--bad)}\n"
    "tr{scroll-margin-top:4rem}\n"
    ".bad ul{margin:.1rem 0 .35rem;padding:0;list-style:none}\n"
    ".soft{color:var(--soft)}.gap td{padding-top:.5rem;padding-bottom:.5rem;color:var(--soft)}\n"
    "@media (max-width:40rem){body{padding:1rem .75rem 3rem}code,.file th{font-size:.8em}"
    ".list .number{padding-right:.6rem}}\n"
    "@media print{:root{--ink:#000;--soft:#444;--paper:#fff;--line:#bbb;--link:#000;--bad:#000;--tint:#fff;"
    "--mark:#ddd;--good:#000;--hint:#fff}body{max-width:none;padding:0;font-size:10pt}nav{display:none}"
    "a{text-decoration:none}tr{break-inside:avoid}h2{break-after:avoid}}\n";

/* The head of the page */

static void put_count(FILE *to, uint64_t count)
{
    fprintf(to, "%" PRIu64 " fault%s", count, count == 1 ? "" : "s");
}

static void put_verdict(const struct page *page)
{
    if (page->found->refusal != 0) {
        fputs("Refused", page->to);
    } else if (page->found->total == 0) {
        fputs("No fault", page->to);
    } else {
        put_count(page->to, page->found->total);
    }
}

static void put_head(const struct page *page, const char *name)
{
    FILE *to = page->to;
    bool good = page->found->refusal == 0 && page->found->total == 0;
    fputs("<!DOCTYPE html>\n<html lang=\"en\">\n<head>\n<meta charset=\"utf-8\">\n"
          "<meta name=\"viewport\" content=\"width=device-width, initial-scale=1\">\n"
          "<meta http-equiv=\"Content-Security-Policy\" content=\"default-src 'none'; style-src 'unsafe-inline'\">\n<title>",
          to);
    put_verdict(page);
    fputs(": ", to);
    put_name(to, name);
    fprintf(to, "</title>\n<style>\n%s</style>\n</head>\n<body>\n<header>\n<h1 class=\"%s\">", STYLE, good ? "good" : "bad");
    put_verdict(page);
    fputs("</h1>\n<dl>\n<div><dt>File</dt><dd>", to);
    put_name(to, name);
    fprintf(to,
            "</dd></div>\n<div><dt>Bytes</dt><dd>%s%zu</dd></div>\n<div><dt>Submitter</dt><dd>%04" PRIu32
            "</dd></div>\n<div><dt>Accounting day</dt><dd>%08" PRIu32 "</dd></div>\n</dl>\n",
            page->file->length == FILE_ROOM ? "at least " : "", page->file->length, page->asked->code, page->asked->day);
}

static void put_hint(FILE *to, const char *hint)
{
    if (hint != NULL) {
        fputs("<p class=\"hint\">", to);
        put_words(to, hint);
        fputs("</p>\n", to);
    }
}

/* The faults */

static void put_fault(const struct page *page, size_t at)
{
    const struct faults *found = page->found;
    fprintf(page->to,
            "<tr id=\"f%zu\"><td class=\"number\"><a href=\"#l%" PRIu32 "\">%" PRIu32 "</a></td><td class=\"number\">%" PRIu32
            "</td><td class=\"number\">%" PRIu32 "</td><td>",
            at + 1, found->lines[at], found->lines[at], found->offsets[at], found->rules[at]);
    put_words(page->to, rule_in_words(found->rules[at]));
    fputs("</td></tr>\n", page->to);
}

static void put_faults(const struct page *page)
{
    fputs("<section aria-labelledby=\"faults\">\n<h2 id=\"faults\">Faults</h2>\n", page->to);
    if (page->listed < page->found->count) {
        fprintf(page->to, "<p>The first %zu of ", page->listed);
        put_count(page->to, page->found->total);
        fputs(" are listed.</p>\n", page->to);
    }
    fputs("<table class=\"list\">\n<thead><tr><th scope=\"col\" class=\"number\">Line</th>"
          "<th scope=\"col\" class=\"number\">Offset</th><th scope=\"col\" class=\"number\">Rule</th>"
          "<th scope=\"col\">What is wrong</th></tr></thead>\n<tbody>\n",
          page->to);
    for (size_t i = 0; i < page->listed; i++) {
        put_fault(page, i);
    }
    fputs("</tbody>\n</table>\n</section>\n", page->to);
}

/* Where not all are listed: how many there are of each. */
static void put_summary(const struct page *page)
{
    size_t counts[RULES];
    count_rules(page->found, counts);
    fputs("<section aria-labelledby=\"rules\">\n<h2 id=\"rules\">All faults by rule</h2>\n<table class=\"list\">\n"
          "<thead><tr><th scope=\"col\" class=\"number\">Rule</th><th scope=\"col\" class=\"number\">Faults</th>"
          "<th scope=\"col\">What is wrong</th></tr></thead>\n<tbody>\n",
          page->to);
    for (uint32_t rule = 0; rule < RULES; rule++) {
        if (counts[rule] > 0) {
            fprintf(page->to, "<tr><td class=\"number\">%" PRIu32 "</td><td class=\"number\">%zu</td><td>", rule, counts[rule]);
            put_words(page->to, rule_in_words(rule));
            fputs("</td></tr>\n", page->to);
        }
    }
    fputs("</tbody>\n</table>\n</section>\n", page->to);
}

/* The whole page */

static void put_refused(const struct page *page)
{
    fprintf(page->to, "</header>\n<main>\n<p>Refusal %" PRIu32 ": ", page->found->refusal);
    put_words(page->to, refusal_in_words(page->found->refusal));
    fputs("</p>\n<p>No rule was asked of this file.</p>\n", page->to);
    if (page->found->refusal == CERTIS_LEFTOVERS) {
        put_hint(page->to, leftovers_hint(page->file).text);
    }
}

static void put_listing(const struct page *page)
{
    bool some = page->listed > 0;
    bool cut = page->listed < page->found->count;
    if (some) {
        fprintf(page->to, "<nav aria-label=\"On this page\"><a href=\"#faults\">Faults</a>%s<a href=\"#file\">In the file</a></nav>\n",
                cut ? "<a href=\"#rules\">By rule</a>" : "");
    }
    fputs("</header>\n<main>\n", page->to);
    put_hint(page->to, line_end_hint(page->file));
    put_hint(page->to, code_page_hint(page->file));
    if (page->found->total == 0) {
        fputs("<p>No rule is broken in this file.</p>\n", page->to);
    }
    if (some) {
        put_faults(page);
    }
    if (cut) {
        put_summary(page);
    }
    if (some) {
        put_places(page);
    }
}

static void put_page(const struct page *page, const char *name)
{
    put_head(page, name);
    if (page->found->refusal != 0) {
        put_refused(page);
    } else {
        put_listing(page);
    }
    fputs("</main>\n</body>\n</html>\n", page->to);
}

/* It is made in memory: what is written is whole. */
bool write_page(const char *name, const struct bytes *file, const struct faults *found, const struct request *asked)
{
    size_t most = asked->most == EVERY ? PAGE_FAULTS : asked->most;
    char *text = NULL;
    size_t length = 0;
    struct page page = {
        .to = open_memstream(&text, &length),
        .file = file,
        .found = found,
        .asked = asked,
        .listed = found->count < most ? found->count : most,
    };
    if (page.to == NULL) {
        complain("not enough memory for the page");
        return false;
    }
    put_page(&page, name);
    bool whole = !ferror(page.to);
    whole = fclose(page.to) == 0 && whole;
    if (!whole) {
        complain("not enough memory for the page");
    }
    bool written = whole && write_file(asked->page, text, length);
    free(text);
    return written;
}
