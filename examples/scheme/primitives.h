/* The functions of the primitives. Each takes its operands, how many they are, and the variable t for the result. The operand may be in t if it is the only
   one. They use S0 to S4. */
#ifndef PRIMITIVES_H
#define PRIMITIVES_H

#include "scheme.h"

#define DEFINED(name) value name(value *a, uint32_t n, uint32_t t)

/* What most primitives don't look at. */
#define UNUSED(n, t) ((void)(n), (void)(t))

DEFINED(p_itself); DEFINED(p_path);
DEFINED(p_add); DEFINED(p_multiply); DEFINED(p_subtract); DEFINED(p_divide); DEFINED(p_max); DEFINED(p_min);
DEFINED(p_equals); DEFINED(p_less); DEFINED(p_greater); DEFINED(p_at_most); DEFINED(p_at_least);
DEFINED(p_quotient); DEFINED(p_remainder); DEFINED(p_modulo); DEFINED(p_is_number); DEFINED(p_is_integer); DEFINED(p_is_exact);
DEFINED(p_is_zero); DEFINED(p_is_positive); DEFINED(p_is_negative); DEFINED(p_to_inexact); DEFINED(p_to_exact);
DEFINED(p_floor); DEFINED(p_round); DEFINED(p_truncate); DEFINED(p_sqrt); DEFINED(p_exp); DEFINED(p_log); DEFINED(p_sin); DEFINED(p_cos); DEFINED(p_atan);
DEFINED(p_number_to_string); DEFINED(p_string_to_number);
DEFINED(p_not); DEFINED(p_is_boolean); DEFINED(p_eq); DEFINED(p_eqv); DEFINED(p_equal);
DEFINED(p_cons); DEFINED(p_car); DEFINED(p_cdr); DEFINED(p_set_car); DEFINED(p_set_cdr); DEFINED(p_compare_and_set);
DEFINED(p_is_null); DEFINED(p_is_pair); DEFINED(p_is_list);
DEFINED(p_length); DEFINED(p_append); DEFINED(p_reverse); DEFINED(p_list_tail); DEFINED(p_list_ref);
DEFINED(p_memv); DEFINED(p_member); DEFINED(p_assv); DEFINED(p_assoc);
DEFINED(p_is_symbol); DEFINED(p_symbol_to_string); DEFINED(p_string_to_symbol);
DEFINED(p_is_char); DEFINED(p_char_equals); DEFINED(p_char_less); DEFINED(p_char_to_integer); DEFINED(p_integer_to_char);
DEFINED(p_is_string); DEFINED(p_make_string); DEFINED(p_string_length); DEFINED(p_string_ref); DEFINED(p_string_set);
DEFINED(p_string_equals); DEFINED(p_string_less); DEFINED(p_substring); DEFINED(p_string_append); DEFINED(p_string_to_list); DEFINED(p_list_to_string);
DEFINED(p_is_vector); DEFINED(p_make_vector); DEFINED(p_vector_length); DEFINED(p_vector_ref); DEFINED(p_vector_set);
DEFINED(p_vector_to_list); DEFINED(p_list_to_vector);
DEFINED(p_string_memory); DEFINED(p_weak_cons); DEFINED(p_is_weak_pair); DEFINED(p_weak_car); DEFINED(p_weak_cdr); DEFINED(p_has_weak_car); DEFINED(p_cycles);
DEFINED(p_is_procedure); DEFINED(p_display); DEFINED(p_write); DEFINED(p_newline); DEFINED(p_error); DEFINED(p_gc); DEFINED(p_future); DEFINED(p_is_future);

#endif
