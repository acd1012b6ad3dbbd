//! zarrs' cache place for codecs of any capabilities, beside the least place that meets the rule.

use std::any::Any;
use std::borrow::Cow;
use std::io::{self, Write};
use std::sync::Arc;

use zarrs::array::codec::array_to_bytes::codec_chain::CodecChain;
use zarrs_codec::{
    ArrayCodecTraits, ArrayToArrayCodecTraits, ArrayToBytesCodecTraits, BytesToBytesCodecTraits, CodecTraits,
    PartialDecoderCapability,
};
use zarrs_plugin::{ExtensionName, ZarrVersion};

use crate::answer::{Answer, Outcome};
use crate::chain;
use crate::rules::{self, UNEXPLAINED};
use crate::words::Error;

/// A codec of any kind that codes nothing and has the capabilities.
#[derive(Debug, Clone, Copy)]
struct Single(PartialDecoderCapability);

fn singles(word: &str) -> Result<Vec<Single>, Error> {
    let yes = |word: &str| match word {
        "yes" => Ok(true),
        "no" => Ok(false),
        _ => Err("neither yes nor no"),
    };
    let single = |word: &str| {
        let (read, decode) = word.split_once('/').ok_or("no single")?;
        Ok(Single(PartialDecoderCapability { partial_read: yes(read)?, partial_decode: yes(decode)? }))
    };
    if word == "-" { Ok(vec![]) } else { word.split(',').map(single).collect() }
}

/// The singles of the byte codecs, of the codec from arrays to bytes and of the array codecs, in decode order.
pub fn cache(bytes: &str, middle: &str, arrays: &str) -> Result<Answer, Error> {
    let (bytes, middle, arrays) = (singles(bytes)?, singles(middle)?, singles(arrays)?);
    let [single] = middle.as_slice() else {
        return Err("one codec from arrays to bytes is wanted");
    };
    let chain = CodecChain::new(
        arrays.iter().rev().map(|single| Arc::new(*single) as Arc<dyn ArrayToArrayCodecTraits>).collect(),
        Arc::new(*single),
        bytes.iter().rev().map(|single| Arc::new(*single) as Arc<dyn BytesToBytesCodecTraits>).collect(),
    );
    let all = [bytes, middle, arrays].concat();
    let capabilities: Vec<_> = all.iter().map(|single| (single.0.partial_read, single.0.partial_decode)).collect();
    let shown = |place: Option<usize>| Outcome::Done(place.map_or("none".to_string(), |place| place.to_string()));
    Ok(Answer::of(shown(chain::cache_index(&chain)), shown(rules::cache_place(&capabilities)), UNEXPLAINED))
}

/// Asks for the place of every list of singles in a chain of up to four byte codecs and two array codecs, and prints those
/// where zarrs has not the place by the rule, and how many there were.
pub fn cache_all(out: &mut dyn Write) -> io::Result<()> {
    let single = ["yes/yes", "yes/no", "no/yes", "no/no"];
    let longer = |lists: &Vec<Vec<&'static str>>| -> Vec<Vec<&'static str>> {
        lists.iter().flat_map(|list| single.map(|single| [list.as_slice(), &[single]].concat())).collect()
    };
    let up_to = |most: usize| -> Vec<Vec<&'static str>> {
        std::iter::successors(Some(vec![vec![]]), |lists| Some(longer(lists))).take(most + 1).flatten().collect()
    };
    let word = |list: &[&str]| if list.is_empty() { "-".to_string() } else { list.join(",") };
    let mut count = 0;
    let mut others = 0;
    for bytes in up_to(4) {
        for middle in single {
            for arrays in up_to(2) {
                let (bytes, arrays) = (word(&bytes), word(&arrays));
                let answer = cache(&bytes, middle, &arrays).map_err(io::Error::other)?;
                count += 1;
                if answer.ruled.is_some() {
                    others += 1;
                    writeln!(out, "> cache {bytes} {middle} {arrays}\n{answer}")?;
                }
            }
        }
    }
    writeln!(out, "cache places: {count}, not by the rule: {others}")?;
    if others == 0 { Ok(()) } else { Err(io::Error::other("cache places not by the rule")) }
}

impl ExtensionName for Single {
    fn name(&self, _version: ZarrVersion) -> Option<Cow<'static, str>> {
        None
    }
}

impl CodecTraits for Single {
    fn as_any(&self) -> &dyn Any {
        self
    }

    fn partial_decoder_capability(&self) -> PartialDecoderCapability {
        self.0
    }
}

impl ArrayCodecTraits for Single {}

impl ArrayToArrayCodecTraits for Single {
    fn into_dyn(self: Arc<Self>) -> Arc<dyn ArrayToArrayCodecTraits> {
        self
    }
}

impl ArrayToBytesCodecTraits for Single {
    fn into_dyn(self: Arc<Self>) -> Arc<dyn ArrayToBytesCodecTraits> {
        self
    }
}

impl BytesToBytesCodecTraits for Single {
    fn into_dyn(self: Arc<Self>) -> Arc<dyn BytesToBytesCodecTraits> {
        self
    }
}
