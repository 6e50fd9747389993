"""What the doc strings of the Python binding say beside docs/use/CALLS.md."""

# What a parameter is measured in and must be, by its name or by call and name.
NOTES = {
    "bit_count": "in bits",
    "make_indexed_part_select.width": "in bits, or in elements of an array",
    "hi": "a bit's or an element's number, from 0",
    "make_slice_expr.hi": "a bit's or an element's number",
    "make_slice_expr.lo": "a bit's or an element's number",
    "lo": "a bit's or an element's number, from 0",
    "make_index.index": "a bit's or an element's number, from 0",
    "dimensions": "numbers of elements, the outermost dimension first",
    "hoist_module_declarations.start": "in members, from 0",
    "make_literal.text": "`bits[WIDTH]:VALUE`, of 1 to 1,048,576 bits and a value below 2^128",
    "bits_msb": "digits `0`, `1` and `?`, the highest first",
    "make_replicated_concat_i64.replication": "how many times",
    "sensitivity_list": "edges, or names",
    "connection_expressions": "`None` leaves the port open",
    "label": "of the loop's block; `None` for no label",
}
SAYS = {
    "DataKind": "What a definition declares.",
    "LiteralFormat": "How a literal is written.",
    "ModulePortDirection": "Which way a port leads.",
    "Port": "A port, as `File.module_ports` tells it: its width in bits, 0 where it isn't known.",
    "RegisterDefinition": "A register of `File.add_registers`, with its value at reset, and when it changes.",
    "Reset": "The reset of `File.add_registers`.",
}
# Of calls that answer a number or whether something is so: what docs/use/CALLS.md says, as a sentence of its own.
MEANINGS = {
    "type_width_as_int64": "The width, in bits, that the type within the arrays declares",
    "type_flat_bit_count_as_int64": "The bits of the type within the arrays times all dimensions",
    "conditional_has_else": "Whether it has its `else`",
    "file_is_plain": "Whether each printed name is an identifier, no edge stands in an expression, and no text is inline",
    "is_system_verilog_keyword": "Whether the word is a keyword of Verilog or SystemVerilog",
    "name_is_free": "Whether no port, wire, reg, logic or function of the module has the name",
    "type_can_be_cast": "Whether it is no array",
    "type_can_be_packed": "Whether it is no unpacked array, `integer` or `int`",
    "type_is_signed": "Whether the type within the arrays is signed",
    "width_is_usable": "Whether it is no literal with a value below 1",
}
# What a call asks, by the words of its clauses.
CONDITIONS = {
    "1 ≤ bit_count": "bit_count at least 1",
    "1 ≤ width": "width at least 1",
    "0 ≤ hi": "hi at least 0",
    "0 ≤ lo": "lo at least 0",
    "0 ≤ index": "index at least 0",
    "AreDimensions dimensions": "at least one dimension, each at least 1",
    "AreSizes (trees_of (map (λ e. e) dimensions))": "at least one dimension, each with `width_is_usable`",
    "IsUsableWidth (tree_of width)": "`width_is_usable`",
    "NameIsFree owner name": "`name_is_free`",
    "has_else (slice_get nests conditional.id.index) ≡ false": "not `conditional_has_else`",
    "is_castable (type_of data_type)": "`type_can_be_cast`",
    "is_packable (type_of element)": "`type_can_be_packed`",
    "length connection_names ≡ length connection_expressions": "as many connections as their names",
    "length names ≡ length values": "as many values as names",
    "length parameter_names ≡ length parameter_expressions": "as many parameters as their names",
    "name ≢ []": "name not empty",
    "start ≤ length (members_in owner)": "start at most `module_member_count`",
}
EVENTS = "where an event is neither an edge nor a name"
IN_FUNCTION = "where the function has the name"
# When a call is refused.
REFUSALS = {
    "make_literal": "where the text is no such literal, or the format doesn't hold its value",
    "make_binary_pattern": "where there is another digit, none, or more than 1,048,576",
    "add_reg": "where the module has the name",
    "add_logic": "where the module has the name",
    "add_variable": "where the module has the name",
    "add_function": "where the result is an unpacked array, or the module has the name",
    "function_add_input": IN_FUNCTION,
    "function_add_logic_input": IN_FUNCTION,
    "function_add_reg": IN_FUNCTION,
    "function_add_logic": IN_FUNCTION,
    "add_always_ff": EVENTS,
    "add_always_at": EVENTS,
    "generate_add_always_ff": EVENTS,
    "generate_add_always_at": EVENTS,
    "case_set_unique": "for `True` in Verilog",
    "emit_expression": "where an index or a slice of a named scalar has a bound that is no literal 0",
    "type_width_as_int64": "where it declares none, or none that is a number",
    "type_flat_bit_count_as_int64": "where they aren't known, or are 2^63 or more",
    "add_registers": "where a register has a value at reset and there is no reset",
    "bitwise_or_reduce_array_elements": "where there is no dimension, one is 0, or they aren't the value's",
}
