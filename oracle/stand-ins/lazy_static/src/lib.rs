//! In place of lazy_static: the one form of it that the original uses.

#[macro_export]
macro_rules! lazy_static {
    (static ref $name:ident : $type:ty = $value:expr;) => {
        static $name: std::sync::LazyLock<$type> = std::sync::LazyLock::new(|| $value);
    };
}
