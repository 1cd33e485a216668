"""Checks that neither the depth nor the breadth of a source takes the machine's stack.

Each form in which a source calls itself is run as deep as the limit of depth allows, and one level deeper;
each list that a source may have is run with 100,000 members. All under an ordinary stack, and under one
of 1 MiB. The reports are those of the reference program.
"""

from check import Check, Each

STACKS = (8192, 1024)

TWELVE = ", ".join(f"{name} = [0]" for name in "abcdefghijkl")
CALL = "m(n - 1); else cube(1); } m({n});"

# name: (source, the deepest that it goes, what is reported there, where the budget comes one level deeper)
FORMS = {
    "a_function": ("function r(n) = n == 0 ? 0 : 1 + r(n - 1); echo(r({n}));", 33331, "ECHO: 33331", "1:17"),
    "a_function_through_let":
        ("function r(n) = n == 0 ? 0 : let(a = r(n - 1)) a + 1; echo(r({n}));", 33331, "ECHO: 33331", "1:17"),
    "a_function_through_a_comprehension":
        ("function r(n) = n == 0 ? [] : [for (i = [0], j = [0], k = [0]) each r(n - 1)]; echo(r({n}));",
         19999, "ECHO: []", "1:41"),
    "a_function_through_a_loop_with_start_test_and_step":
        ("function r(n) = n == 0 ? [] : [for (i = 0; i < 1; i = i + 1) each r(n - 1)]; echo(r({n}));",
         19999, "ECHO: []", "1:41"),
    "a_function_through_its_default":
        ("$n = {n}; function r(d = $n == 0 ? 0 : let($n = $n - 1) r()) = d; echo(r());", 33331, "ECHO: 0", "1:28"),
    "a_module": ("module m(n) { if (n > 0) " + CALL, 49998, "", "1:28"),
    "children_of_children":
        ("module m(n) { if (n > 0) m(n - 1) children(); else children(); } m({n}) cube(1);", 33331, "", "1:80"),
    "a_module_through_for_of_twelve_variables":
        ("module m(n) { if (n > 0) for (" + TWELVE + ") " + CALL, 33332, "", "1:36"),
    "a_module_through_intersection_for": ("module m(n) { if (n > 0) intersection_for (i = [0]) " + CALL, 33332, "", "1:49"),
    "a_module_through_let":
        ("module m(n) { if (n > 0) let(a = n - 1) m(a); else cube(1); } m({n});", 33332, "", "1:34"),
    "a_module_through_union": ("module m(n) { if (n > 0) union() " + CALL, 33332, "", "1:38"),
}

SOLID = "ok: 1 leaves, 12 triangles, 5 layers"
NOTHING = "ok: 0 leaves, 0 triangles, 0 layers"


def each_of(count, form):
    return ", ".join(form.format(i=i) for i in range(count))


# Members of each list: each source is below 4 MiB, the limit of sources, and takes fewer than 500,000 steps.
MANY = 100_000
LAST = MANY - 1

VARIABLES = each_of(MANY, "v{i} = {i}")
TURNS = each_of(MANY, "v{i} = [0]")
PLAIN = each_of(MANY, "{i}")
PARAMETERS = each_of(MANY, "v{i}")
ASSIGNMENTS = "".join(f"v{i}={i};" for i in range(MANY))
FUNCTIONS = "".join(f"function f{i}()={i};" for i in range(MANY))
MODULES = "".join(f"module m{i}()echo({i});" for i in range(MANY))
LAST_ECHOED = f"ECHO: {LAST}\n{NOTHING}"

# name: (source, report)
LISTS = {
    "variables_of_a_for": (f"for ({TURNS}) cube(1);", SOLID),
    "variables_of_an_intersection_for": (f"intersection_for ({TURNS}) cube(1);", SOLID),
    "variables_of_a_comprehension": (f"echo([for ({TURNS}) v{LAST}]);", f"ECHO: [0]\n{NOTHING}"),
    "variables_of_a_loop_with_start_test_and_step":
        (f"echo([for ({VARIABLES}; v0 < 1; v0 = 1) v{LAST}]);", f"ECHO: [{LAST}]\n{NOTHING}"),
    "names_of_a_let": (f"echo(let({VARIABLES}) v{LAST});", LAST_ECHOED),
    "names_of_a_let_of_statements": (f"let({VARIABLES}) echo(v{LAST});", LAST_ECHOED),
    "arguments": (f"echo(max({PLAIN}));", LAST_ECHOED),
    "arguments_past_the_parameters": (f"function f(x) = x; echo(f({PLAIN}));", f"ECHO: 0\n{NOTHING}"),
    "arguments_of_a_function": (f"function f({PARAMETERS}) = v{LAST}; echo(f({PLAIN}));", LAST_ECHOED),
    "arguments_of_a_module": (f"module m({PARAMETERS}) echo(v{LAST}); m({PLAIN});", LAST_ECHOED),
    "arguments_of_a_function_by_name":
        (f"function f({PARAMETERS}) = v{LAST}; echo(f({VARIABLES}));", LAST_ECHOED),
    "arguments_of_a_module_by_name":
        (f"module m({PARAMETERS}) echo(v{LAST}); m({VARIABLES});", LAST_ECHOED),
    "parameters": (f"function f({VARIABLES}) = v{LAST}; echo(f());", LAST_ECHOED),
    "parameters_of_a_module": (f"module m({VARIABLES}) echo(v{LAST}); m();", LAST_ECHOED),
    "elements": (f"echo(len([{PLAIN}]));", f"ECHO: {MANY}\n{NOTHING}"),
    "statements_without_shapes": ("union();" * MANY, NOTHING),
    "assignments": (f"{ASSIGNMENTS} echo(v{LAST});", LAST_ECHOED),
    "functions": (f"{FUNCTIONS} echo(f{LAST}());", LAST_ECHOED),
    "modules": (f"{MODULES} m{LAST}();", LAST_ECHOED),
    "children": (f"module m() children(); m() {{ {'union();' * LAST} echo({LAST}); }}", LAST_ECHOED),
    "children_one_of_which_is_run":
        (f"module m() children({LAST}); m() {{ {'echo();' * LAST} echo({LAST}); }}", LAST_ECHOED),
}


def by_stacks(name, source, report, status=0):
    """A check of a source under each size of the stack, each by what tells it apart."""
    return {f"{name} with a stack of {size} KiB":
            Check(name, [b"check", b"m.scad"], status, f"{report}\n".encode(), {"m.scad": source.encode()},
                  shell=f'ulimit -s {size} && exec "$@"') for size in STACKS}


def deep(name, form, deepest, told, place):
    at = lambda n: form.replace("{n}", str(n))
    done = f"{told}\n{NOTHING}" if told else SOLID
    return Each(f"depth_of_{name}", {**by_stacks("the deepest", at(deepest), done),
                                     **by_stacks("one deeper", at(deepest + 1), f"budget 3 Depth at {place}", 6)})


def depth_checks():
    return [
        *(deep(name, *form) for name, form in FORMS.items()),
        *(Each(f"many_{name}", by_stacks("all", source, report)) for name, (source, report) in LISTS.items()),
    ]
