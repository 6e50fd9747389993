/* Handles, each kind a type of its own, the enums and the groups of calls. They come with
 * vast_calls.h.
 *
 * Written by tools/bindings_from_calls from the table of calls; not to be edited.
 */
#ifndef VAST_KINDS_H
#define VAST_KINDS_H

#ifndef __cplusplus
#include <stdbool.h>
#endif
#include <stddef.h>
#include <stdint.h>
#include <string.h>

/* A text of UTF-8 of so many bytes, which needs no NUL after it and may hold some. Where there may
 * be none, none has NULL for its bytes. */
typedef struct {
    const char *bytes;
    size_t length;
} vast_string;

/* The text that ends before a NUL, as that of a literal; of NULL no text. */
static inline vast_string vast_str(const char *string)
{
    vast_string text = {string, string == NULL ? 0 : strlen(string)};
    return text;
}

/* Whose handle it is, and its number. */
typedef struct {
    uintptr_t file;
    size_t step;
} vast_handle;

/* What a definition declares. */
typedef enum { VAST_DATA_KIND_REG, VAST_DATA_KIND_WIRE, VAST_DATA_KIND_LOGIC,
               VAST_DATA_KIND_INTEGER, VAST_DATA_KIND_INT, VAST_DATA_KIND_USER,
               VAST_DATA_KIND_UNTYPED_ENUM, VAST_DATA_KIND_GENVAR } vast_data_kind;

/* The word of a variant in lists of calls; NULL where it is none. */
static inline const char *vast_data_kind_word(vast_data_kind variant)
{
    static const char *const words[] = {"Reg", "Wire", "Logic", "Integer", "Int", "User",
                                        "UntypedEnum", "Genvar"};
    size_t place = (size_t)variant;
    return place < sizeof words / sizeof words[0] ? words[place] : NULL;
}

/* How a literal is written. */
typedef enum { VAST_LITERAL_FORMAT_BINARY, VAST_LITERAL_FORMAT_HEX,
               VAST_LITERAL_FORMAT_SIGNED_DECIMAL, VAST_LITERAL_FORMAT_UNSIGNED_DECIMAL,
               VAST_LITERAL_FORMAT_UNSIZED_BINARY, VAST_LITERAL_FORMAT_UNSIZED_DECIMAL,
               VAST_LITERAL_FORMAT_UNSIZED_HEX } vast_literal_format;

/* The word of a variant in lists of calls; NULL where it is none. */
static inline const char *vast_literal_format_word(vast_literal_format variant)
{
    static const char *const words[] = {"Binary", "Hex", "SignedDecimal", "UnsignedDecimal",
                                        "UnsizedBinary", "UnsizedDecimal", "UnsizedHex"};
    size_t place = (size_t)variant;
    return place < sizeof words / sizeof words[0] ? words[place] : NULL;
}

/* Which way a port leads. */
typedef enum { VAST_MODULE_PORT_DIRECTION_INPUT, VAST_MODULE_PORT_DIRECTION_OUTPUT,
               VAST_MODULE_PORT_DIRECTION_IN_OUT } vast_module_port_direction;

/* The word of a variant in lists of calls; NULL where it is none. */
static inline const char *vast_module_port_direction_word(vast_module_port_direction variant)
{
    static const char *const words[] = {"Input", "Output", "InOut"};
    size_t place = (size_t)variant;
    return place < sizeof words / sizeof words[0] ? words[place] : NULL;
}

/* A module. */
typedef struct { vast_handle id; } vast_module;

/* A function. */
typedef struct { vast_handle id; } vast_function;

/* A data type. */
typedef struct { vast_handle id; } vast_type;

/* A named expression: a port, a wire, a variable or a function's result. */
typedef struct { vast_handle id; } vast_signal;

/* An expression. */
typedef struct { vast_handle id; } vast_expression;

/* An expression that may be selected from. */
typedef struct { vast_handle id; } vast_indexable;

/* A part select `s[h:l]`. */
typedef struct { vast_handle id; } vast_slice;

/* A bit select `s[i]`. */
typedef struct { vast_handle id; } vast_index;

/* An instantiation of a module. */
typedef struct { vast_handle id; } vast_instantiation;

/* A blank line. */
typedef struct { vast_handle id; } vast_blank_line;

/* A text of Verilog that is written as it is. */
typedef struct { vast_handle id; } vast_inline_statement;

/* A comment. */
typedef struct { vast_handle id; } vast_comment;

/* The use of a macro as an expression. */
typedef struct { vast_handle id; } vast_macro;

/* The use of a macro as a member. */
typedef struct { vast_handle id; } vast_macro_statement;

/* An assignment `assign l = r`. */
typedef struct { vast_handle id; } vast_assignment;

/* An always block. */
typedef struct { vast_handle id; } vast_always;

/* A list of procedural statements. */
typedef struct { vast_handle id; } vast_block;

/* An assignment of a procedural block. */
typedef struct { vast_handle id; } vast_statement;

/* A statement `if`. */
typedef struct { vast_handle id; } vast_conditional;

/* A case statement. */
typedef struct { vast_handle id; } vast_case;

/* A generate loop. */
typedef struct { vast_handle id; } vast_loop;

/* The name of a parameter. */
typedef struct { vast_handle id; } vast_parameter;

/* The name of a local parameter. */
typedef struct { vast_handle id; } vast_localparam;

/* A definition: a name with its kind and type. */
typedef struct { vast_handle id; } vast_definition;

/* Where the always block of registers goes. */
typedef struct { vast_handle id; } vast_scope;

/* A port, as `vast_module_ports` tells it: its width in bits, 0 where it isn't known. */
typedef struct {
    vast_string name;
    vast_module_port_direction direction;
    int64_t width;
    bool is_signed;
    vast_string reference;
} vast_port;

/* A register of `vast_add_registers`, with its value at reset, and when it changes. What it has
 * not is NULL. */
typedef struct {
    vast_expression reg;
    vast_expression next;
    const vast_expression *reset_value;
    const vast_expression *enable;
} vast_register_definition;

/* The reset of `vast_add_registers`. */
typedef struct {
    vast_expression signal;
    bool active_low;
} vast_reset;

/* Handles that stand for an expression, as one; `vast_expression_of` takes each of them. */
static inline vast_expression vast_expression_itself(vast_expression given)
{
    return given;
}

static inline vast_expression vast_signal_expression(vast_signal given)
{
    vast_expression same = {given.id};
    return same;
}

static inline vast_expression vast_indexable_expression(vast_indexable given)
{
    vast_expression same = {given.id};
    return same;
}

static inline vast_expression vast_slice_expression(vast_slice given)
{
    vast_expression same = {given.id};
    return same;
}

static inline vast_expression vast_index_expression(vast_index given)
{
    vast_expression same = {given.id};
    return same;
}

static inline vast_expression vast_macro_expression(vast_macro given)
{
    vast_expression same = {given.id};
    return same;
}

static inline vast_expression vast_parameter_expression(vast_parameter given)
{
    vast_expression same = {given.id};
    return same;
}

static inline vast_expression vast_localparam_expression(vast_localparam given)
{
    vast_expression same = {given.id};
    return same;
}

#ifdef __cplusplus
static inline vast_expression vast_expression_of(vast_expression given)
{
    return vast_expression_itself(given);
}

static inline vast_expression vast_expression_of(vast_signal given)
{
    return vast_signal_expression(given);
}

static inline vast_expression vast_expression_of(vast_indexable given)
{
    return vast_indexable_expression(given);
}

static inline vast_expression vast_expression_of(vast_slice given)
{
    return vast_slice_expression(given);
}

static inline vast_expression vast_expression_of(vast_index given)
{
    return vast_index_expression(given);
}

static inline vast_expression vast_expression_of(vast_macro given)
{
    return vast_macro_expression(given);
}

static inline vast_expression vast_expression_of(vast_parameter given)
{
    return vast_parameter_expression(given);
}

static inline vast_expression vast_expression_of(vast_localparam given)
{
    return vast_localparam_expression(given);
}
#else
#define vast_expression_of(given) \
    _Generic((given), \
        vast_expression: vast_expression_itself, \
        vast_signal: vast_signal_expression, \
        vast_indexable: vast_indexable_expression, \
        vast_slice: vast_slice_expression, \
        vast_index: vast_index_expression, \
        vast_macro: vast_macro_expression, \
        vast_parameter: vast_parameter_expression, \
        vast_localparam: vast_localparam_expression)(given)
#endif

/* Handles that stand for an indexable, as one; `vast_indexable_of` takes each of them. */
static inline vast_indexable vast_indexable_itself(vast_indexable given)
{
    return given;
}

static inline vast_indexable vast_signal_indexable(vast_signal given)
{
    vast_indexable same = {given.id};
    return same;
}

static inline vast_indexable vast_index_indexable(vast_index given)
{
    vast_indexable same = {given.id};
    return same;
}

static inline vast_indexable vast_parameter_indexable(vast_parameter given)
{
    vast_indexable same = {given.id};
    return same;
}

#ifdef __cplusplus
static inline vast_indexable vast_indexable_of(vast_indexable given)
{
    return vast_indexable_itself(given);
}

static inline vast_indexable vast_indexable_of(vast_signal given)
{
    return vast_signal_indexable(given);
}

static inline vast_indexable vast_indexable_of(vast_index given)
{
    return vast_index_indexable(given);
}

static inline vast_indexable vast_indexable_of(vast_parameter given)
{
    return vast_parameter_indexable(given);
}
#else
#define vast_indexable_of(given) \
    _Generic((given), \
        vast_indexable: vast_indexable_itself, \
        vast_signal: vast_signal_indexable, \
        vast_index: vast_index_indexable, \
        vast_parameter: vast_parameter_indexable)(given)
#endif

/* Handles that stand for a scope, as one; `vast_scope_of` takes each of them. */
static inline vast_scope vast_module_scope(vast_module given)
{
    vast_scope same = {given.id};
    return same;
}

static inline vast_scope vast_loop_scope(vast_loop given)
{
    vast_scope same = {given.id};
    return same;
}

#ifdef __cplusplus
static inline vast_scope vast_scope_of(vast_module given)
{
    return vast_module_scope(given);
}

static inline vast_scope vast_scope_of(vast_loop given)
{
    return vast_loop_scope(given);
}
#else
#define vast_scope_of(given) \
    _Generic((given), \
        vast_module: vast_module_scope, \
        vast_loop: vast_loop_scope)(given)
#endif

#endif
