//! A netlist to be judged: its image and its names.

use crate::args::DesignArgs;
use crate::failure::{fail, Failure, Outcome};
use crate::files::hash;
use crate::names::{self, Names};
use crate::wave::Signal;
use std::collections::HashSet;
use std::fs::{self, File};
use std::io::{ErrorKind, Read};
use std::path::Path;
use tracker::{check, image_length, kinds, Image, Sizes, MOST_NETS};

/// An accepted image with its names.
pub struct Design {
    pub file: String,
    pub image: Vec<u8>,
    pub hash: String,
    pub sizes: Sizes,
    /// The net numbers of the outputs, in order.
    pub outputs: Vec<usize>,
    pub names: Names,
}

/// Reads an image, and has the library check it.
pub fn read_image(path: &Path) -> Outcome<Vec<u8>> {
    let failed = |error| Failure::reading(path.display(), &error);
    let mut image = Vec::new();
    // A byte more than the largest image, so that a longer file is refused for its length.
    let most = image_length(MOST_NETS) as u64 + 1;
    File::open(path).and_then(|file| file.take(most).read_to_end(&mut image)).map_err(failed)?;
    match check(&image) {
        Ok(()) => Ok(image),
        Err(refusal) => fail!("{}: {refusal}", path.display()),
    }
}

impl Design {
    /// Reads the image and the names file, which has to be the image's.
    pub fn read(args: &DesignArgs) -> Outcome<Design> {
        let bytes = read_image(&args.image)?;
        let hash = hash(&bytes);
        let Some(image) = Image::of(&bytes) else {
            fail!("{}: no image", args.image.display());
        };
        let names = read_names(args, &image, &hash)?;
        Ok(Design {
            file: args.image.display().to_string(),
            sizes: image.sizes(),
            outputs: image.outputs().collect(),
            names,
            hash,
            image: bytes,
        })
    }

    /// An output for a message: its name and its net.
    pub fn told(&self, net: usize) -> String {
        format!("{} (net {net})", self.names.name(net))
    }

    /// The names of the inputs.
    pub fn inputs(&self) -> Vec<String> {
        self.names.of_kind(kinds::INPUT)
    }

    /// The names of the outputs.
    pub fn output_names(&self) -> Vec<String> {
        self.names.of_kind(kinds::OUT)
    }

    /// The named nets, each name once. Names that a program made are left out.
    pub fn signals(&self) -> Vec<Signal<'_>> {
        let mut taken = HashSet::new();
        let nets = self.names.nets.iter().enumerate();
        let of_nets = nets.filter_map(|(net, named)| named.name.as_deref().map(|name| Signal { name, net, inverted: false }));
        let further = self.names.also.iter();
        let further = further.map(|also| Signal { name: &also.name, net: also.net, inverted: also.inverted });
        let given = of_nets.chain(further).filter(|signal| !signal.name.starts_with('$'));
        given.filter(|signal| taken.insert(signal.name)).collect()
    }

    /// Whether an output, counted among the outputs, is protected by the image itself.
    pub fn is_protected(&self, output: usize) -> bool {
        Image::of(&self.image).is_some_and(|image| image.is_protected(self.outputs[output]))
    }
}

/// Reads the names file. Where none is named and none stands beside the image, nets are called by their numbers.
fn read_names(args: &DesignArgs, image: &Image, hash: &str) -> Outcome<Names> {
    let path = args.names.clone().unwrap_or_else(|| args.image.with_extension("names"));
    let file = path.display();
    let text = match fs::read_to_string(&path) {
        Ok(text) => text,
        Err(error) if args.names.is_none() && error.kind() == ErrorKind::NotFound => {
            return Ok(Names::numbered(image.kinds(), hash.to_string()));
        }
        Err(error) => return Err(Failure::reading(file, &error)),
    };
    let names = names::read(&file.to_string(), &text)?;
    let kinds: Vec<u8> = names.nets.iter().map(|net| net.kind).collect();
    if names.image != hash || kinds != image.kinds() {
        fail!("{file} is the names file of another image than {}", args.image.display());
    }
    Ok(names)
}
