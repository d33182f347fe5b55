#include <abt.hpp>
void misuse(abt::table &table)
{
    (void)table.total();
#ifdef MISUSE
    abt::table second = table;
#endif
}
