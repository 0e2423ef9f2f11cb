//! The reference: the original's reader, in which each call that reads a chunk through the map passes the name that the chunk
//! has to bear (change request 6). A call is found by its exact text, in the function that it stands in. Where it is not
//! there just once, nothing is built; and no other text of the original is changed.

/// A call that passes no name: the function that it stands in, its text, and the name that it passes in the reference.
struct Call {
    function: &'static str,
    text: &'static str,
    name: &'static str,
}

const CALLS: [Call; 5] = [
    Call {
        function: "parse_attributes",
        text: "chunk_data(buf, *off, None)?;",
        name: "b\"ImageAttributesLV!\"",
    },
    Call {
        function: "open",
        text: "chunk_data(buf, exp_off, None)",
        name: "b\"ImageMetadataLV!\"",
    },
    Call {
        function: "parse_calibration_um",
        text: "chunk_data(buf, *off, None).ok()",
        name: "b\"ImageCalibrationLV|0!\"",
    },
    Call {
        function: "parse_channels",
        text: "chunk_data(buf, *off, None) {",
        name: "b\"ImageMetadataSeqLV|0!\"",
    },
    Call {
        function: "frame_pixels",
        text: "chunk_data(&self.mmap, *off, None)",
        name: "name.as_bytes()",
    },
];

/// The text of the reference, and how many calls differ from the original's; or why there is none.
pub fn of(original: &str) -> Result<(String, usize), String> {
    let mut text = original.to_string();
    for call in &CALLS {
        text = call.named(&text)?;
    }
    let unnamed = |line: &&str| line.contains("chunk_data(") && line.contains("None");
    match text.lines().find(unnamed) {
        Some(line) => Err(format!("one more call passes no name: {}", line.trim())),
        None => Ok((text, CALLS.len())),
    }
}

impl Call {
    /// The text with the name in this call.
    fn named(&self, text: &str) -> Result<String, String> {
        let found: Vec<usize> = text.match_indices(self.text).map(|(at, _)| at).collect();
        let &[at] = &found[..] else {
            let (many, call, function) = (found.len(), self.text, self.function);
            return Err(format!(
                "`{call}` is {many} times in the original, once expected, in {function}"
            ));
        };
        let (before, after) = (&text[..at], &text[at + self.text.len()..]);
        let head = before.rfind("fn ").map_or("", |place| &before[place + 3..]);
        if !head.starts_with(&format!("{}(", self.function)) {
            return Err(format!("`{}` is not in {}", self.text, self.function));
        }
        let call = self.text.replace("None", &format!("Some({})", self.name));
        Ok([before, &call, after].concat())
    }
}

#[cfg(test)]
mod tests {
    use super::*;

    /// A text that has every call in its function, and some other text.
    fn whole() -> String {
        let function = |call: &Call| format!("fn {}(x) {{\n    {}\n}}\n", call.function, call.text);
        let functions: Vec<String> = CALLS.iter().map(function).collect();
        format!("// None\n{}", functions.concat())
    }

    #[test]
    fn every_call_passes_its_name() {
        let (text, changed) = of(&whole()).unwrap();
        assert_eq!(changed, 5);
        assert_eq!(text.matches("None").count(), 1);
        for name in [
            "*off, Some(b\"ImageAttributesLV!\"))?;",
            "exp_off, Some(b\"ImageMetadataLV!\"))",
            "*off, Some(b\"ImageCalibrationLV|0!\")).ok()",
            "*off, Some(b\"ImageMetadataSeqLV|0!\")) {",
            "(&self.mmap, *off, Some(name.as_bytes()))",
        ] {
            assert_eq!(text.matches(name).count(), 1, "{name}");
        }
    }

    #[test]
    fn another_text_is_told() {
        for call in &CALLS {
            let gone = whole().replace(call.text, "");
            let told = of(&gone).unwrap_err();
            assert!(
                told.contains("0 times") && told.contains(call.text),
                "{told}"
            );
            let twice = whole() + call.text;
            assert!(of(&twice).unwrap_err().contains("2 times"));
            let elsewhere = whole().replace(&format!("fn {}(", call.function), "fn other(");
            assert!(of(&elsewhere).unwrap_err().contains("is not in"));
        }
        let more = whole() + "fn other(x) { chunk_data(y, z, None) }\n";
        assert!(of(&more).unwrap_err().contains("one more call"));
    }
}
