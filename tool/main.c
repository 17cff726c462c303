#include "files.h"
#include "run.h"

#include <libxml/parser.h>

int main(int count, char **words)
{
    hold_standard_streams();
    enum status status = run(count, words);
    xmlCleanupParser();
    return (int)status;
}
