// usage: drive ED rounds ; prints "name ns" minima over rounds
#define _GNU_SOURCE
#include <stdio.h>
#include <stdlib.h>
#include <string.h>
#include <time.h>
#include "signalfern.h"
static double now(void){struct timespec t;clock_gettime(CLOCK_MONOTONIC,&t);return t.tv_sec*1e9+t.tv_nsec;}
static uint64_t s=88172645463325252ull; static uint64_t rnd(void){s^=s<<13;s^=s>>7;s^=s<<17;return s;}
#define Q 4096
static volatile uint64_t sink;
int main(int argc,char**argv){
  unsigned ed=atoi(argv[1]); int reps=atoi(argv[2]); int few=argc>3?atoi(argv[3]):0;
  int kinds[3]={100,2,1}; const char*kn[3]={"sparse","dense","full"};
  int widths[]={1,7,8,12,16,33,57,63,64}; int nw=9;
  for(int k=0;k<3;k++){
    uint32_t n=k==0?200000:400000; uint32_t*ids=malloc(4*n);uint32_t c=0;
    for(uint32_t i=0;i<n;i++){ids[i]=c; c+= k==0?1+rnd()%199:(k==1?1+rnd()%3:1);}
    for(int wi=0;wi<nw;wi++){int w=widths[wi]; if(few>0&&k!=0&&!(w==12||w==33||w==64))continue; if(few>0&&k==0&&w!=12&&w!=64)continue;
      int64_t*vs=malloc(8*(size_t)n); uint64_t m=w==64?~0ull:((1ull<<w)-1);
      uint64_t tab[300]; for(int i=0;i<300;i++)tab[i]=rnd()&m; int T=few>1?few:0;
      for(uint32_t i=0;i<n;i++){uint64_t x=rnd()&m; if(T)x=tab[x%T]; vs[i]=(int64_t)x;} vs[1]=0;vs[2]=(int64_t)m;vs[3]=1; if(T){vs[1]=vs[2]=vs[3]=vs[0];}
      size_t cap=64+(size_t)n*12+(1<<20); uint8_t*out=malloc(cap);
      signalfern_reply r=signalfern_write(ids,n,vs,n,ed,9,out,cap);
      if(r.refusal){fprintf(stderr,"refused %lu\n",r.refusal);return 1;}
      size_t len=r.number; uint8_t*b=malloc(len);memcpy(b,out,len);
      uint32_t nc=n/50; uint32_t*cids=malloc(4*nc);int64_t*cvs=malloc(8*nc);for(uint32_t i=0;i<nc;i++){cids[i]=ids[i*50];cvs[i]=vs[i*50];}
      uint8_t*cb=malloc(cap);signalfern_reply cr=signalfern_write(cids,nc,cvs,nc,ed,9,cb,cap); if(cr.refusal){fprintf(stderr,"c refused %lu\n",cr.refusal);return 1;}
      signalfern_column col=signalfern_open(b,len),ccol=signalfern_open(cb,cr.number);
      uint32_t q[Q];for(int i=0;i<Q;i++)q[i]=ids[rnd()%n];
      double best[10];for(int i=0;i<10;i++)best[i]=1e18;
      static uint8_t kk[Q];static uint64_t oo[Q];static int64_t vv[Q];
      uint32_t*rid=malloc(4*n);int64_t*rv=malloc(8*(size_t)n); memset(rid,1,4*n);memset(rv,1,8*(size_t)n);
      for(int rep=0;rep<reps;rep++){uint64_t acc=0;double t;
        t=now();for(int i=0;i<Q;i++)acc+=signalfern_look_up(b,len,q[i]).value;t=(now()-t)/Q;if(t<best[0])best[0]=t;
        t=now();for(int i=0;i<Q;i++)acc+=signalfern_look_up_in(col,b,len,q[i]).value;t=(now()-t)/Q;if(t<best[1])best[1]=t;
        signalfern_cursor cu={0};
        t=now();for(int i=0;i<Q;i++){cu.last=0;acc+=signalfern_next_in(col,cu,b,len,q[i]).value;}t=(now()-t)/Q;if(t<best[2])best[2]=t;
        t=now();for(int i=0;i<Q;i++)acc+=signalfern_look_up_layered_in(col,b,len,ccol,cb,cr.number,q[i]).value;t=(now()-t)/Q;if(t<best[3])best[3]=t;
        t=now();acc+=signalfern_look_up_page(b,len,q,Q,oo,Q,vv,Q,kk,Q).words;t=(now()-t)/Q;if(t<best[4])best[4]=t;
        if(rep%4==0){
        t=now();acc+=signalfern_check(b,len).number;t=(now()-t)/n;if(t<best[5])best[5]=t;
        t=now();acc+=signalfern_read(b,len,rid,n,rv,n).number;t=(now()-t)/n;if(t<best[6])best[6]=t;
        t=now();acc+=signalfern_write(ids,n,vs,n,ed,9,out,cap).number;t=(now()-t)/n;if(t<best[7])best[7]=t;}
        sink+=acc;}
      if(memcmp(rv,vs,8*(size_t)n)){fprintf(stderr,"read differs\n");return 1;}
      const char*cn[8]={"look_up","look_up_in","next_in","layered_in","page","check","read","write"};
      for(int i=0;i<8;i++)printf("%s/%d/%s %.4f\n",kn[k],w,cn[i],best[i]);
      printf("%s/%d/bytes %.4f\n",kn[k],w,(double)len/n);
      free(vs);free(out);free(b);free(cids);free(cvs);free(cb);free(rid);free(rv);
    } free(ids);}
}
