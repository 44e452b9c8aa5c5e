"""A directory of pages, whose files aren't known before it is made: what Bazel calls a tree artifact."""

def _pages_impl(ctx):
    pages = ctx.actions.declare_directory(ctx.label.name)
    arguments = ctx.actions.args()
    arguments.add_all([pages], expand_directories = False)
    arguments.add_all(ctx.files.srcs)
    ctx.actions.run_shell(
        inputs = ctx.files.srcs,
        outputs = [pages],
        arguments = [arguments],
        command = """
to=$1; shift
mkdir -p "$to/by name" "$to/drafts"
for it in "$@"; do
  read -r first < "$it"
  cp "$it" "$to/by name/$first.txt"
done
ls "$to/by name" > "$to/index"
""",
        mnemonic = "Pages",
        progress_message = "Making the pages of %s" % ctx.label,
    )
    return [DefaultInfo(files = depset([pages]))]

pages = rule(
    implementation = _pages_impl,
    attrs = {"srcs": attr.label_list(allow_files = True)},
)
