//! Parts of paths.

use super::{AstNode, AstToken, Interpol, InterpolPart, Path, PathAbs, PathContent, PathHome, PathRel};
use crate::syntax::ast::AstNode as _;
use crate::NodeOrToken;

fn parts(path: &impl AstNode) -> Vec<InterpolPart<PathContent>> {
    let part = |child| match child {
        NodeOrToken::Node(node) => Interpol::cast(node).map(InterpolPart::Interpolation),
        NodeOrToken::Token(token) => PathContent::cast(token).map(InterpolPart::Literal),
    };
    path.syntax().children_with_tokens().filter_map(part).collect()
}

macro_rules! have_parts {
    ($($name:ident)+) => {$(
        impl $name {
            /// Returns the path's parts, in order.
            pub fn parts(&self) -> Vec<InterpolPart<PathContent>> {
                parts(self)
            }
        }
    )+};
}

have_parts! { PathAbs PathRel PathHome }

impl Path {
    /// Returns the path's parts, in order. A search path has one.
    pub fn parts(&self) -> Vec<InterpolPart<PathContent>> {
        parts(self)
    }

    /// Returns whether the path is a search path, such as `<a>`.
    pub fn is_search(&self) -> bool {
        matches!(self, Path::PathSearch(_))
    }

    /// Returns whether the path may contain interpolations.
    pub fn is_interpolatable(&self) -> bool {
        !self.is_search()
    }
}
