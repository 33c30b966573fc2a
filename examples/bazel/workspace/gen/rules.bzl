"""Rules whose outputs are a folder and a link."""

def _split_tree(ctx):
    out = ctx.actions.declare_directory(ctx.label.name)
    ctx.actions.run_shell(
        outputs = [out],
        inputs = [ctx.file.src],
        mnemonic = "SplitTree",
        arguments = [ctx.file.src.path, out.path],
        command = "while read name text; do printf '%s\\n' $text > $2/$name; done < $1",
    )
    return [DefaultInfo(files = depset([out]))]

# A folder with a file for each line, which has the name first.
split_tree = rule(
    implementation = _split_tree,
    attrs = {"src": attr.label(allow_single_file = True)},
)

def _cat_tree(ctx):
    out = ctx.actions.declare_file(ctx.label.name)
    ctx.actions.run_shell(
        outputs = [out],
        inputs = ctx.files.tree,
        mnemonic = "CatTree",
        arguments = [ctx.files.tree[0].path, out.path],
        command = "cat $1/* > $2",
    )
    return [DefaultInfo(files = depset([out]))]

# The files of a folder, one after the other.
cat_tree = rule(
    implementation = _cat_tree,
    attrs = {"tree": attr.label(allow_files = True)},
)

def _link(ctx):
    out = ctx.actions.declare_file(ctx.label.name)
    ctx.actions.symlink(output = out, target_file = ctx.file.src)
    return [DefaultInfo(files = depset([out]))]

# A symbolic link.
link = rule(
    implementation = _link,
    attrs = {"src": attr.label(allow_single_file = True)},
)
