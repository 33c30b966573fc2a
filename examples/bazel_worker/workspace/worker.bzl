"""Rules whose actions are done by a persistent worker: the words of each stand in a flag file, one a line."""

def _do(ctx, out, words):
    """An action of the worker that makes this output, with these words."""
    words.use_param_file("@%s", use_always = True)
    words.set_param_file_format("multiline")
    ctx.actions.run(
        mnemonic = ctx.attr.mnemonic,
        executable = ctx.executable.worker,
        arguments = [words],
        inputs = ctx.files.srcs,
        outputs = [out],
        execution_requirements = {
            "supports-workers": "1",
            "supports-multiplex-workers": "1" if ctx.attr.multiplex else "0",
            "supports-worker-cancellation": "1",
            "requires-worker-protocol": ctx.attr.protocol,
        },
    )
    return [DefaultInfo(files = depset([out]))]

def _copies(ctx):
    """`demo_tool`: a copy of the sources, one behind another."""
    out = ctx.actions.declare_file(ctx.label.name + ".copy")
    words = ctx.actions.args()
    words.add(out.path, format = "--out=%s")
    words.add_all(ctx.files.srcs, format_each = "--in=%s")
    words.add_all(ctx.attr.more)
    return _do(ctx, out, words)

def _lines(ctx):
    """`line_worker`: how many lines the sources have."""
    out = ctx.actions.declare_file(ctx.label.name + ".lines")
    words = ctx.actions.args()
    words.add(out.path)
    words.add_all(ctx.files.srcs)
    return _do(ctx, out, words)

def _link(ctx):
    """A link that Bazel itself makes."""
    out = ctx.actions.declare_file(ctx.label.name + ".link")
    ctx.actions.symlink(output = out, target_file = ctx.file.src)
    return [DefaultInfo(files = depset([out]))]

def _text(ctx):
    """A file that Bazel itself writes."""
    out = ctx.actions.declare_file(ctx.label.name + ".txt")
    ctx.actions.write(out, ctx.attr.text)
    return [DefaultInfo(files = depset([out]))]

WORDS = {
    "srcs": attr.label_list(allow_files = True),
    "mnemonic": attr.string(mandatory = True),
    "multiplex": attr.bool(),
    "protocol": attr.string(default = "proto", values = ["proto", "json"]),
    "worker": attr.label(mandatory = True, executable = True, cfg = "exec", allow_single_file = True),
}

copies = rule(implementation = _copies, attrs = dict(WORDS, more = attr.string_list()))

lines = rule(implementation = _lines, attrs = WORDS)

link = rule(implementation = _link, attrs = {"src": attr.label(mandatory = True, allow_single_file = True)})

text = rule(implementation = _text, attrs = {"text": attr.string()})
