; The one instruction of x86-64 that the module names, `pshufb`, in those of WebAssembly. A place picks a byte by its
; low four bits, and 0 where its highest bit is set. `swizzle` picks 0 for each place above 15, so the three bits
; between are taken away first.
declare <16 x i8> @llvm.wasm.swizzle(<16 x i8>, <16 x i8>)

define internal <16 x i8> @shuffle_bytes(<16 x i8> %bytes, <16 x i8> %places) alwaysinline {
  %masked = and <16 x i8> %places,
    <i8 143, i8 143, i8 143, i8 143, i8 143, i8 143, i8 143, i8 143,
     i8 143, i8 143, i8 143, i8 143, i8 143, i8 143, i8 143, i8 143>
  %picked = call <16 x i8> @llvm.wasm.swizzle(<16 x i8> %bytes, <16 x i8> %masked)
  ret <16 x i8> %picked
}
