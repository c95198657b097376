#!/usr/bin/env python3
"""Tries the comparison itself: deliberately wrong copies of the Rust original's
rules have to be told from the library, and deliberately wrong libraries from the
original and from the promises about buffers.

    wrong.py PATH [WORDS]    PATH is the src/ folder of the Rust original; with
                             WORDS only the copies whose title has them

Each wrong copy is one edit; with it the comparison is built anew in target/wrong
and run until the first difference.  A wrong library is the built one behind a call
that spoils its answer or its buffers.  Says for each which command noticed it, after
how many trees or texts and in which time; exits with 1 if one was not noticed.
Python 3, standard library only; needs rt, cargo, cc, ar and objcopy.
"""

import os
import re
import shutil
import subprocess
import sys
import time
from pathlib import Path

ROOT = Path(__file__).resolve().parent.parent
COPIES = ROOT / 'target' / 'wrong' / 'copies'
BUILT = ROOT / 'target' / 'wrong' / 'cargo'
LIBRARY = ROOT / 'target' / 'staticlib' / 'libserduzhap_c.a'
MOD, SCOPE, BUILTINS = 'semantic/mod.rs', 'semantic/scope.rs', 'builtins.rs'
FILES = (MOD, SCOPE, BUILTINS, 'parser/ast.rs')

# the most trees or texts that a wrong copy is tried with
MOST = 1000000

# what is wrong and in which file; the original's text, the first place of it; what stands there instead
RULES = [
    ('a for name is no own name', MOD,
     'locals.insert(var.clone());',
     ''),
    ('a def name is no own name', MOD,
     'Stmt::Def { name, .. } => {\n'
     '                locals.insert(name.clone());',
     'Stmt::Def { .. } => {'),
    ('a class name is no own name', MOD,
     'Stmt::Class { name, .. } => {\n'
     '                locals.insert(name.clone());',
     'Stmt::Class { .. } => {'),
    ('names in a tuple target are no own names', MOD,
     'collect_locals_from_target(&elem.0, locals);',
     ''),
    ('names bound in an elif are no own names', MOD,
     'for (_, block) in elif_blocks {\n'
     '                    collect_locals(block, locals);',
     'for (_, block) in elif_blocks {\n'
     '                    let _ = block;'),
    ('own names are the parameters', MOD,
     'collect_locals(body, &mut locals);',
     ''),
    ('a def counts as assigned', MOD,
     '            inner_ctx.functions.insert(name.clone(), params.len());',
     '            assigned.insert(name.clone()); inner_ctx.functions.insert(name.clone(), params.len());'),
    ('a class in a def counts as assigned', MOD,
     '        Stmt::Class { name, .. } => {\n'
     '            // ',
     '        Stmt::Class { name, .. } => {\n'
     '            assigned.insert(name.clone()); // '),
    ('a for name does not count as assigned', MOD,
     'if locals.contains(var) {\n'
     '                assigned.insert(var.clone());',
     'if locals.contains(var) {'),
    ('a method has own names like a def', MOD,
     'let locals: HashSet<String> = method.params.iter().cloned().collect();',
     'let mut locals: HashSet<String> = method.params.iter().cloned().collect(); collect_locals(&method.body, '
     '&mut locals);'),
    ('a for name is bound before its iterable, in the module', MOD,
     '            analyze_expr_module(iterable, scopes, ctx)?;\n',
     '            scopes.define(var.clone()); analyze_expr_module(iterable, scopes, ctx)?;\n'),
    ('a target is bound before the value', MOD,
     'analyze_expr_module(value, scopes, ctx)?;',
     'if let Expr::Variable(n) = &target.0 { scopes.define(n.clone()); } analyze_expr_module(value, scopes, ctx)?;'),
    ("a function's name is not bound in the module", MOD,
     '            scopes.define(name.clone());\n'
     '            ctx.functions',
     '            ctx.functions'),
    ('what a function binds stays in view', MOD,
     '    scopes.pop();\n'
     '    // ',
     '    // '),
    ("a method's names stay in view", MOD,
     '                scopes.pop();\n'
     '            }\n'
     '\n'
     '            Ok(())',
     '            }\n'
     '\n'
     '            Ok(())'),
    ("a lambda's parameters stay in view, in the module", MOD,
     '            analyze_expr_module(body, scopes, ctx)?;\n'
     '            scopes.pop();',
     '            analyze_expr_module(body, scopes, ctx)?;'),
    ("a lambda's captures are not looked at first, in the module", MOD,
     'collect_free_vars(body, params, &mut free_vars);',
     'if false { collect_free_vars(body, params, &mut free_vars); }'),
    ('parameters of a lambda in a lambda are captured', MOD,
     'collect_free_vars(body, inner_params, &mut inner_free_vars);',
     'let _ = inner_params; collect_free_vars(body, &Vec::new(), &mut inner_free_vars);'),
    ('parameters of the outer lambda are captured by the inner', MOD,
     '                if !params.contains(&var) {\n'
     '                    free_vars.insert(var);',
     '                {\n'
     '                    free_vars.insert(var);'),
    ("a lambda's captures in a def are blamed on the read", MOD,
     '"Unbound local variable \'{}\' captured by lambda", var),\n'
     '                        span: expr.1.clone(),',
     '"Unbound local variable \'{}\' captured by lambda", var),\n'
     '                        span: body.1.clone(),'),
    ("a lambda's body in a def keeps the own names", MOD,
     'analyze_expr_function(body, scopes, ctx, &lambda_locals, &lambda_locals)?;',
     'let _ = lambda_locals; analyze_expr_function(body, scopes, ctx, locals, assigned)?;'),
    ('an undefined function is blamed on its name', MOD,
     '"Undefined function: {}", name),\n'
     '                        span: expr.1.clone(),',
     '"Undefined function: {}", name),\n'
     '                        span: func_name.1.clone(),'),
    ('an unbound callee is called a variable', MOD,
     '"Unbound local function: {}"',
     '"Unbound local variable: {}"'),
    ('arguments are not read, in a def', MOD,
     '            for a in args {\n'
     '                analyze_expr_function(a, scopes, ctx, locals, assigned)?;',
     '            for a in args {\n'
     '                let _ = a;'),
    ('values of a dict are not read, in the module', MOD,
     'analyze_expr_module(value, scopes, ctx)?;\n'
     '            }',
     '}'),
    ('an index is not read, in a def', MOD,
     'analyze_expr_function(index, scopes, ctx, locals, assigned)?;',
     ''),
    ('an element that is assigned to is not read', MOD,
     '        Expr::Attribute { .. } | Expr::Index { .. } => {\n'
     '            analyze_expr_module(target, scopes, ctx)',
     '        Expr::Attribute { .. } | Expr::Index { .. } => {\n'
     '            Ok(())'),
    ('a list may be assigned to', MOD,
     'Expr::Literal(_) | Expr::Call { .. } |',
     'Expr::List(_) => Ok(()), Expr::Literal(_) | Expr::Call { .. } |'),
    ('a refused target is blamed on the value', MOD,
     'validate_and_analyze_assign_target(target, scopes, ctx, false)?;',
     'validate_and_analyze_assign_target(target, scopes, ctx, false).map_err(|e| SemanticError { message: '
     'e.message, span: value.1.clone() })?;'),
    ('a method needs a first parameter, of any name', MOD,
     'method.params.is_empty() || method.params[0] != "self"',
     'method.params.is_empty()'),
    ('methods of a class are not visited', MOD,
     'for s in &method.body {\n'
     '                    analyze_stmt_function(s, scopes, ctx, &locals, &mut assigned)?;',
     'for s in &method.body {\n'
     '                    let _ = (s, &locals, &mut assigned);'),
    ('an else is not visited, in a def', MOD,
     '                for s in block {\n'
     '                    analyze_stmt_function(s, scopes, ctx, locals, assigned)?;\n'
     '                }\n'
     '            }\n'
     '            Ok(())',
     '                let _ = block;\n'
     '            }\n'
     '            Ok(())'),
    ('a return is not read, in the module', MOD,
     'Stmt::Return(expr) => analyze_expr_module(expr, scopes, ctx),',
     'Stmt::Return(_) => Ok(()),'),
    ('only the innermost scope is looked at', SCOPE,
     'self.stack.iter().rev()',
     'self.stack.iter().rev().take(1)'),
    ('a name is bound in the outermost scope', SCOPE,
     'self.stack.last_mut()',
     'self.stack.first_mut()'),
    ('treeset is no built-in name', BUILTINS,
     'name: "treeset"',
     'name: "treeSet"'),
    ('globals are not bound', MOD,
     'scopes.define(g.clone());',
     'let _ = g;'),
]

# what is wrong, the command that has to notice it, the place in SHIM and the C that stands there
LIBRARIES = [
    ('check accepts everything', 'trees', 'CHECK',
     'memset(a, 0, 7 * sizeof *a); a[0] = 100;'),
    ('check answers with nothing but zeros', 'trees', 'CHECK',
     'memset(a, 0, 7 * sizeof *a);'),
    ('check accepts with a number that is not documented', 'trees', 'CHECK',
     'if (a[0] == 100) a[0] = 99;'),
    ('check answers 3 to a text that is read', 'trees', 'CHECK',
     'if (a[0] == 100) a[0] = 3, a[1] = 1;'),
    ('a report leaves its last fault out', 'trees', 'REPORT',
     'if (a[0] == 101 && a[1] > 1) a[1]--;'),
    ('a message says another name', 'trees', 'MESSAGE',
     'if (a[0] == 101 && a[1] > 60) out[a[1] - 1] ^= 1; else if (a[0] == 101) out[a[1] - 1] = 33;'),
    ('check depends on the work buffer', 'damaged', 'CHECK_FIRST',
     'if (n > 4096 && work[16383] == 0) t = 0;'),
    ('report writes a number past the output', 'damaged', 'REPORT',
     'if (a[0] == 101) out[o] = 0;'),
    ('report writes a number before the output', 'damaged', 'REPORT',
     'if (a[0] == 101) out[-1] = 0;'),
    ('report clears the output on refusal 16', 'damaged', 'REPORT',
     'if (a[0] == 16 && o > 0) out[0] = 0;'),
    ('report writes one number too many', 'damaged', 'REPORT',
     'if (a[0] == 101 && 7 * a[1] < o) out[7 * a[1]] = 5;'),
    ('message writes a zero after its words', 'damaged', 'MESSAGE',
     'if (a[0] == 101 && a[1] < o) out[a[1]] = 0;'),
    ('message answers 18 before 17', 'damaged', 'MESSAGE',
     'if (a[0] == 17 && o == 0) a[0] = 18;'),
    ('name reads a byte past the text', 'damaged', 'NAME',
     'if (text[t] == 7) a[2]++;'),
    ('name writes to the text', 'damaged', 'NAME',
     'if (t > 0) *(volatile uint8_t *)(text + t - 1) = text[t - 1];'),
    ('check writes past the work buffer', 'damaged', 'CHECK',
     'work[n] = 0;'),
    ('a short work buffer is taken', 'damaged', 'CHECK',
     'if (a[0] == 2) a[0] = 100;'),
    ('check leaves the last number of an answer as it was', 'damaged', 'CHECK',
     'if (a[0] != 15) a[6] = last;'),
    ('check writes a number past its answer', 'damaged', 'CHECK',
     'a[7] = 0;'),
    ('name writes a number before its answer', 'damaged', 'NAME',
     'a[-1] = 0;'),
    ('report refuses at another line than check', 'damaged', 'REPORT',
     'if (a[0] == 5) a[1]++;'),
    ('name answers with another part', 'damaged', 'NAME',
     'if (a[2] > 1) a[2]--;'),
]

# the library's calls under their own names, around those of the built library, which are renamed
SHIM = '''
#include "serduzhap.h"
#include <string.h>
#define INPUT const uint8_t *text, uint64_t t, uint32_t *work, uint64_t n
void real_check(INPUT, uint32_t *a);
void real_report(INPUT, uint32_t *out, uint64_t o, uint32_t *a);
void real_message(INPUT, uint64_t i, uint8_t *out, uint64_t o, uint32_t *a);
void real_name(INPUT, uint64_t i, uint32_t *a);
void serduzhap_check(INPUT, uint32_t *a) {
    uint32_t last = a[6];
    CHECK_FIRST
    real_check(text, t, work, n, a);
    CHECK
    (void)last;
}
void serduzhap_report(INPUT, uint32_t *out, uint64_t o, uint32_t *a) {
    real_report(text, t, work, n, out, o, a);
    REPORT
}
void serduzhap_message(INPUT, uint64_t i, uint8_t *out, uint64_t o, uint32_t *a) {
    real_message(text, t, work, n, i, out, o, a);
    MESSAGE
}
void serduzhap_name(INPUT, uint64_t i, uint32_t *a) {
    real_name(text, t, work, n, i, a);
    NAME
}
'''


def edited(folder: Path, original: Path, file: str, old: str, new: str) -> Path:
    """A copy of the original's files in a folder, with one edit."""
    for name in FILES:
        (folder / name).parent.mkdir(parents=True, exist_ok=True)
        text = (original / name).read_text(encoding='utf-8')
        if name == file:
            assert old in text, old
            text = text.replace(old, new, 1)
        (folder / name).write_text(text, encoding='utf-8')
    return folder


def spoiled(folder: Path, place: str, code: str) -> Path:
    """The library in a folder, behind calls of which one spoils something."""
    archive, source, compiled = folder / LIBRARY.name, folder / 'shim.c', folder / 'shim.o'
    renamed = [flag for call in ('check', 'report', 'message', 'name')
               for flag in ('--redefine-sym', 'serduzhap_%s=real_%s' % (call, call))]
    subprocess.run(['objcopy', *renamed, str(LIBRARY), str(archive)], check=True)
    source.write_text(re.sub(r'^    (CHECK_FIRST|CHECK|REPORT|MESSAGE|NAME)$',
                             lambda line: '    ' + code if line[1] == place else '', SHIM, flags=re.M))
    subprocess.run(['cc', '-O1', '-I', str(ROOT / 'include'), '-c', str(source), '-o', str(compiled)], check=True)
    subprocess.run(['ar', 'r', str(archive), str(compiled)], check=True, stderr=subprocess.DEVNULL)
    return folder


def build(original: Path, library: Path) -> None:
    """The comparison, with the original and the library of these folders."""
    folders = {'ORIGINAL_SRC': str(original), 'SERDUZHAP_LIB': str(library), 'CARGO_TARGET_DIR': str(BUILT)}
    ran = subprocess.run(['cargo', 'build', '--frozen', '--release', '--quiet', '--package', 'oracle'],
                         cwd=ROOT, env={**os.environ, **folders}, capture_output=True, text=True)
    if ran.returncode != 0:
        sys.exit(ran.stderr)


def noticed(command: str, count: int) -> str | None:
    """How it was noticed, or None."""
    start = time.time()
    ran = subprocess.run([str(BUILT / 'release' / 'oracle'), command, str(count), '1'],
                         capture_output=True, text=True, errors='replace')
    spent = time.time() - start
    if ran.returncode < 0:
        return 'crashed by signal %d, %.1f s' % (-ran.returncode, spent)
    counted = re.match(r'\d+ trees, \d+ texts', ran.stdout)
    if 'DIFFERENCE' in ran.stdout and counted:
        return '%s, %.1f s' % (counted[0], spent)
    if 'no difference' in ran.stdout:
        return None
    return 'ended with %d, %.1f s: %s' % (ran.returncode, spent, ran.stderr.strip().splitlines()[0][:80])


def tried(command: str, title: str) -> bool:
    """Whether what was built is noticed."""
    how = noticed(command, MOST)
    print('%-8s %-62s %s' % (command, title, how or 'NOT NOTICED'), flush=True)
    return how is not None


def new_folder(title: str) -> Path:
    """A folder of its own for each wrong copy: so cargo cannot take one for the one before."""
    folder = COPIES / re.sub(r'\W+', '-', title)
    folder.mkdir(parents=True)
    return folder


def main(arguments: list[str]) -> int:
    original, words = Path(arguments[0]).resolve(), ' '.join(arguments[1:])
    subprocess.run(['tools/staticlib', 'serduzhap_c'], cwd=ROOT, check=True,
                   stdout=subprocess.DEVNULL, stderr=subprocess.DEVNULL)
    shutil.rmtree(COPIES, ignore_errors=True)
    results = []
    for title, file, old, new in RULES:
        if words in title:
            build(edited(new_folder(title), original, file, old, new), LIBRARY.parent)
            results.append(tried('trees', title))
    for title, command, place, code in LIBRARIES:
        if words in title:
            build(original, spoiled(new_folder(title), place, code))
            results.append(tried(command, title))
    missed = results.count(False)
    print('%d wrong copies, %d not noticed' % (len(results), missed))
    return 1 if missed or not results else 0


if __name__ == '__main__':
    sys.exit(main(sys.argv[1:]))
