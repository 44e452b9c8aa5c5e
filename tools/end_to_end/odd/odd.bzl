"""Rules whose actions are odd in Bazel's log."""

def _directory_impl(ctx):
    made = ctx.actions.declare_directory(ctx.label.name)
    ctx.actions.run_shell(
        inputs = ctx.files.srcs,
        outputs = [made],
        arguments = [made.path] + [it.path for it in ctx.files.srcs],
        command = ctx.attr.command,
        mnemonic = "Directory",
    )
    return [DefaultInfo(files = depset([made]))]

directory = rule(
    implementation = _directory_impl,
    attrs = {"command": attr.string(), "srcs": attr.label_list(allow_files = True)},
)

def _parameters_impl(ctx):
    made = ctx.actions.declare_file(ctx.label.name + ".txt")
    words = ctx.actions.args()
    words.add_all(ctx.attr.words)
    words.use_param_file("@%s", use_always = True)
    ctx.actions.run(
        outputs = [made],
        executable = "/bin/sh",
        arguments = ["-c", "cat \"${1#@}\" > \"$0\"", made.path, words],
        mnemonic = "Parameters",
    )
    return [DefaultInfo(files = depset([made]))]

parameters = rule(
    implementation = _parameters_impl,
    attrs = {"words": attr.string_list()},
)

def _written_impl(ctx):
    made = ctx.actions.declare_file(ctx.label.name + ".txt")
    ctx.actions.write(made, "written\n")
    return [DefaultInfo(files = depset([made]))]

written = rule(implementation = _written_impl)
