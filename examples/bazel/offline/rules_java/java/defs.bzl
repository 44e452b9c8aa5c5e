"""The rules that Bazel itself has, under the names that @rules_java gives them."""

java_import = native.java_import
java_library = native.java_library
java_runtime = native.java_runtime
java_toolchain = native.java_toolchain
