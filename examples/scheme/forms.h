/* What the compiler and the special forms share. The form whose parts are compiled is on top of the stack in the heap. */
#ifndef FORMS_H
#define FORMS_H

#include "scheme.h"

/* The names of a lambda, a let or a loop. A variable that nobody can name has NONE. */
struct scope { struct scope *outer; uint32_t count, name[MOST]; };

uint32_t compile(struct scope *scope);
uint32_t node(enum op op, uint32_t a, uint32_t b, uint32_t c);
uint32_t call(enum op op, uint32_t a, const uint32_t *args, uint32_t n);
uint32_t primitive_call(uint32_t primitive, const uint32_t *args, uint32_t n);
uint32_t constant(void);
uint32_t reference(struct scope *scope, uint32_t name);
uint32_t assignment(struct scope *scope, uint32_t name, uint32_t value_, int defines);
int element(uint32_t i);
void rest_from(uint32_t i);
uint32_t form_length(void);
void add_name(struct scope *scope);
int is_free(struct scope *scope, uint32_t name);

/* forms.c. Whether the name is a special form's, which is compiled then. */
int special_form(struct scope *scope, uint32_t name, uint32_t *made);
uint32_t named(const char *name);
uint32_t nothing_node(void);
void need(uint32_t least, const char *form);
uint32_t part(struct scope *scope, uint32_t i);
int is_form(struct scope *scope, const char *name);
int is_name(const char *name);
uint32_t sequence(struct scope *scope, uint32_t from);
uint32_t lambda_of(struct scope *scope, uint32_t from);
uint32_t let_over(struct scope *inner, uint32_t init, uint32_t body_);

/* cases.c */
uint32_t form_cond(struct scope *scope);
uint32_t form_case(struct scope *scope);
uint32_t form_quasiquote(struct scope *scope);
uint32_t form_future(struct scope *scope);

#endif
